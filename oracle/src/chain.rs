//! Our C functions of the whole chain, and what they are handed.

use rcflib::common::deviation::Deviation;
use rcflib::trcf::basicthresholder::Numbers;
use rcflib::trcf::predictorcorrector::State;
use rcflib::trcf::types::{CorrectionMode, ScoringStrategy};

use crate::bytes::Bytes;
use crate::ours::c;
use crate::readings::{Reading, Verdict};

/// Lengths of a state, and of a verdict: its code in the order quiet, corrected, raised, skipped,
/// the mode's code, the threshold, the grade, the relative index.
pub const STATE: usize = 1310;
pub const VERDICT: usize = 14;

/// Where a state has its yes/no, run length, base dimension and lists.
pub const ADJUST: usize = Numbers::SIZE;
pub const RUN: usize = ADJUST + 1;
pub const BASE: usize = RUN + 4;
pub const ACTUAL: usize = BASE + 4;
pub const EXPECTED: usize = ACTUAL + 16 * Deviation::SIZE;

pub fn new(discount: f64, auto_adjust: u8, base_dimension: usize, out: &mut [u8]) -> u8 {
    unsafe {
        c::krcf_new(
            discount,
            auto_adjust,
            base_dimension,
            out.as_mut_ptr(),
            out.len(),
        )
    }
}

macro_rules! setters {
    ($($name:ident = $c:ident;)*) => {$(
        pub fn $name(state: &mut [u8], x: f32) -> u8 {
            unsafe { c::$c(state.as_mut_ptr(), state.len(), x) }
        }
    )*};
}

setters! {
    set_z_factor = krcf_chain_set_z_factor;
    set_lower_threshold = krcf_chain_set_lower_threshold;
    set_initial_threshold = krcf_chain_set_initial_threshold;
    set_horizon = krcf_chain_set_horizon;
}

/// A judgment by a C function: a slice that it changes, a drawer's number where that is a pool, then
/// what is handed over, each slice as its start and length.
macro_rules! judgment {
    ($c:path, $h:ident, $changed:expr $(, $drawer:expr)?) => {{
        let [point, scale, shift, deviations, last_expected, last_anomalous, median, neighbours] =
            &$h.points;
        let [high, low, ideal_high, ideal_low] = &$h.vectors;
        judgment!(
            $c,
            [$changed],
            [$($drawer)?],
            [
                $h.reading,
                $h.last,
                point,
                scale,
                shift,
                deviations,
                last_expected,
                last_anomalous,
                high,
                low,
                median,
                ideal_high,
                ideal_low,
                neighbours
            ],
            [$h.expected, $h.out_high, $h.out_low, $h.verdict]
        )
    }};
    ($c:path, [$changed:expr], [$($drawer:expr)?], [$($read:expr),*], [$($written:expr),*]) => {
        unsafe {
            $c(
                $changed.as_mut_ptr(), $changed.len(),
                $($drawer,)?
                $($read.as_ptr(), $read.len(),)*
                $($written.as_mut_ptr(), $written.len(),)*
            )
        }
    };
}

/// All that one judgment is handed: the buffers that are read, and those that it may write.
#[derive(Clone, Debug)]
pub struct Handed {
    pub reading: Vec<u8>,
    pub last: Vec<u8>,
    pub points: [Vec<f32>; 8],
    pub vectors: [Vec<f64>; 4],
    pub state: Vec<u8>,
    pub expected: Vec<f32>,
    pub out_high: Vec<f64>,
    pub out_low: Vec<f64>,
    pub verdict: Vec<u8>,
}

/// The places of `points` in the order of the C function's parameters.
pub const POINT: usize = 0;
pub const LAST_EXPECTED: usize = 4;
pub const NEIGHBOURS: usize = 7;

fn strategy(s: ScoringStrategy) -> u8 {
    (s != ScoringStrategy::EXPECTED_INVERSE_HEIGHT) as u8
}

/// A reading's bytes, and those of its last descriptor.
pub fn reading_bytes(r: &Reading) -> Vec<u8> {
    let mut out = Vec::new();
    out.extend((r.shingle as u32).to_le_bytes());
    out.extend((r.base as u32).to_le_bytes());
    out.extend([strategy(r.strategy), r.method as u8, r.time_augmented as u8]);
    out.extend((r.values_seen as u32).to_le_bytes());
    out.extend(r.score.to_le_bytes());
    out.extend(r.corrected_score.to_le_bytes());
    out
}

pub fn last_bytes(r: &Reading) -> Vec<u8> {
    let mut out = vec![strategy(r.last.scoring_strategy)];
    out.extend(r.last.score.to_le_bytes());
    out.extend(r.last.threshold.to_le_bytes());
    match &r.last.last_anomaly {
        Some(a) => {
            out.push(1);
            out.extend(a.relative_index.to_le_bytes());
            out.extend((a.values_seen as u32).to_le_bytes());
            out.push(a.attribution.is_some() as u8);
            out.extend(a.score.to_le_bytes());
        }
        None => out.extend([0; 14]),
    }
    out
}

impl Handed {
    /// The buffers that may be written have values of their own, so that a change shows.
    pub fn new(state: &[u8], r: &Reading) -> Self {
        let n = r.shingle * r.base;
        let anomaly = r.last.last_anomaly.as_ref();
        let last_expected = anomaly.map_or(vec![], |a| a.expected_rcf_point.clone());
        let last_anomalous = anomaly.map_or(vec![], |a| a.anomalous_rcf_point.clone());
        Handed {
            reading: reading_bytes(r),
            last: last_bytes(r),
            points: [
                r.point.clone(),
                r.scale.clone(),
                r.shift.clone(),
                r.deviations.clone(),
                last_expected,
                last_anomalous,
                r.median.clone(),
                r.neighbours.concat(),
            ],
            vectors: [
                r.attribution.high.clone(),
                r.attribution.low.clone(),
                r.expected_attribution.high.clone(),
                r.expected_attribution.low.clone(),
            ],
            state: state.to_vec(),
            expected: vec![-7.5; n],
            out_high: vec![-3.25; n],
            out_low: vec![-1.125; n],
            verdict: vec![0xa5; VERDICT],
        }
    }

    /// Our judgment: the refusal's number or 0.
    pub fn judge(&mut self) -> u8 {
        judgment!(c::krcf_detect_and_modify, self, self.state)
    }

    /// The same with the state of a drawer in a pool.
    pub fn judge_in(&mut self, pool: &mut [u8], drawer: u32) -> u8 {
        judgment!(c::krcf_pool_detect_and_modify, self, pool, drawer)
    }
}

const MODES: [CorrectionMode; 7] = [
    CorrectionMode::NONE,
    CorrectionMode::NOISE,
    CorrectionMode::MULTI_MODE,
    CorrectionMode::ANOMALY_IN_SHINGLE,
    CorrectionMode::CONDITIONAL_FORECAST,
    CorrectionMode::FORECAST,
    CorrectionMode::DATA_DRIFT,
];

/// The verdict of its bytes, with the relative index.
pub fn said(bytes: &[u8]) -> (Verdict, i32) {
    let (threshold, grade) = (f32::get(&bytes[2..]), f32::get(&bytes[6..]));
    let verdict = match bytes[0] {
        0 => Verdict::Quiet(threshold),
        1 => Verdict::Corrected(threshold, MODES[bytes[1] as usize % 7]),
        2 => Verdict::Raised(threshold, grade),
        _ => Verdict::Skipped,
    };
    (verdict, i32::get(&bytes[10..]))
}

/// The bytes of a verdict: what it does not carry is 0.
pub fn verdict_bytes(verdict: Verdict, relative_index: i32) -> Vec<u8> {
    let (kind, mode, threshold, grade) = match verdict {
        Verdict::Quiet(t) => (0, CorrectionMode::NONE, t, 0.0),
        Verdict::Corrected(t, mode) => (1, mode, t, 0.0),
        Verdict::Raised(t, grade) => (2, CorrectionMode::NONE, t, grade),
        Verdict::Skipped => (3, CorrectionMode::NONE, 0.0, 0.0),
    };
    let mut out = vec![kind, mode as u8];
    out.extend(threshold.plain().bytes());
    out.extend(grade.plain().bytes());
    out.extend(relative_index.bytes());
    out
}

/// A state's bytes as the Rust's state. Its lists have as many statistics as the Rust's would.
pub fn state_of(bytes: &[u8]) -> State {
    let word = |at: usize| i32::get(&bytes[at..]) as u32 as usize;
    let auto_adjust = bytes[ADJUST] != 0;
    let n = if auto_adjust { word(BASE).min(16) } else { 0 };
    let list = |at: usize| {
        let each = (0..n).map(|k| Deviation::get(&bytes[at + k * Deviation::SIZE..]));
        each.collect::<Vec<Deviation>>()
    };
    State {
        basic_thresholder: Numbers::get(bytes),
        auto_adjust,
        run_length: word(RUN),
        deviations_actual: list(ACTUAL),
        deviations_expected: list(EXPECTED),
    }
}
