//! A forest that answers what it was told to, and records what it was asked.

// Each test needs a part of it.
#![allow(dead_code)]

use std::cell::RefCell;

use withdrawal_watch::{Attribution, Forest};

#[derive(Clone, Debug, PartialEq)]
pub enum Call {
    Score(Vec<f32>),
    Attribution(Vec<f32>),
    Density(Vec<f32>),
    Neighbours(Vec<f32>, usize),
    Field(Vec<usize>, Vec<f32>, f64, bool, usize),
}

/// Scores and attributions come in the order of the calls, the last one again and again.
#[derive(Clone, Default)]
pub struct Scripted {
    pub scores: Vec<f64>,
    pub attributions: Vec<Attribution>,
    pub neighbours: Vec<f32>,
    pub median: Vec<f32>,
    /// The call, counted from 1, that fails.
    pub fails: Option<usize>,
    /// How many of the densities are asked for a score.
    pub densities: usize,
    pub made: RefCell<Vec<Call>>,
}

impl Scripted {
    /// What a fresh watch raises, as the reading of that name.
    pub fn raised() -> Scripted {
        Scripted {
            scores: vec![1.75],
            attributions: vec![
                Attribution {
                    high: vec![0.0, 0.0, 0.5, 3.0],
                    low: vec![0.0; 4],
                },
                Attribution {
                    high: vec![0.0; 4],
                    low: vec![0.0; 4],
                },
            ],
            neighbours: vec![-99.0; 4],
            median: vec![2.0; 4],
            densities: 1,
            ..Scripted::default()
        }
    }

    pub fn calls(&self) -> Vec<Call> {
        self.made.borrow().clone()
    }

    fn record(&self, call: Call) -> Result<(), String> {
        let mut calls = self.made.borrow_mut();
        calls.push(call);
        match self.fails {
            Some(n) if n == calls.len() => Err(format!("call {n}")),
            _ => Ok(()),
        }
    }

    fn asked(&self, is: impl Fn(&Call) -> bool) -> usize {
        self.made.borrow().iter().filter(|call| is(call)).count()
    }
}

/// The k-th of a list, the last one beyond its end.
fn nth<T: Clone>(list: &[T], k: usize) -> T {
    list[k.min(list.len() - 1)].clone()
}

impl Forest for Scripted {
    type Error = String;

    fn score(&self, point: &[f32]) -> Result<f64, String> {
        let before = self.asked(|call| matches!(call, Call::Score(_)));
        self.record(Call::Score(point.to_vec()))?;
        Ok(nth(&self.scores, before))
    }

    fn attribution(&self, point: &[f32]) -> Result<Attribution, String> {
        let density = self.asked(|call| matches!(call, Call::Density(_)));
        let before = self.asked(|call| matches!(call, Call::Attribution(_)));
        self.record(Call::Attribution(point.to_vec()))?;
        // Under DISTANCE the first one was a density.
        Ok(nth(&self.attributions, before + density.min(1)))
    }

    fn density_interpolant(&self, point: &[f32]) -> Result<Attribution, String> {
        let before = self.asked(|call| matches!(call, Call::Density(_)));
        self.record(Call::Density(point.to_vec()))?;
        if before < self.densities {
            return Ok(Attribution {
                high: vec![nth(&self.scores, before)],
                low: vec![0.0],
            });
        }
        Ok(self.attributions[0].clone())
    }

    fn near_neighbor_list(&self, point: &[f32], percentile: usize) -> Result<Vec<f32>, String> {
        self.record(Call::Neighbours(point.to_vec(), percentile))?;
        Ok(self.neighbours.clone())
    }

    fn conditional_field(
        &self,
        positions: &[usize],
        point: &[f32],
        centrality: f64,
        project: bool,
        max_number: usize,
    ) -> Result<Vec<f32>, String> {
        let (positions, point) = (positions.to_vec(), point.to_vec());
        self.record(Call::Field(
            positions, point, centrality, project, max_number,
        ))?;
        Ok(self.median.clone())
    }
}

type Spoil = fn(&mut Scripted);

/// Ways to spoil what is said of a raised reading two rows after an anomaly, with auto adjust, and
/// what the error then says.
pub fn spoils() -> Vec<(Spoil, &'static str)> {
    vec![
        (
            |f| f.scores[0] = f64::NAN,
            "refusal 4: score: NaN, not a finite number",
        ),
        (
            |f| f.scores[0] = 1e39,
            "refusal 4: score: inf, not a finite number",
        ),
        (
            |f| f.scores[1] = f64::NEG_INFINITY,
            "refusal 4: corrected_score: -inf, not a finite number",
        ),
        (
            |f| f.attributions[0].high.truncate(3),
            "refusal 3: attribution.high: 3 numbers, not 4",
        ),
        (
            |f| f.attributions[0].low[2] = f64::INFINITY,
            "refusal 4: attribution.low[2]: inf, not a finite number",
        ),
        (
            |f| f.neighbours = vec![1.0; 1023],
            "refusal 3: neighbours: 1,023 numbers, not a multiple of 4",
        ),
        (
            |f| f.neighbours = vec![1.0; 4 * 257],
            "refusal 3: neighbours: 257 points, more than 256",
        ),
        (
            |f| f.neighbours[1] = f32::NAN,
            "refusal 4: neighbours[1]: NaN, not a finite number",
        ),
        (
            |f| f.median.push(1.0),
            "refusal 3: median: 5 numbers, not 4",
        ),
        (|f| f.median.clear(), "refusal 3: median: 0 numbers, not 4"),
        (
            |f| f.median[0] = f32::INFINITY,
            "refusal 4: median[0]: inf, not a finite number",
        ),
        (
            |f| f.attributions[1].low.push(1.0),
            "refusal 3: expected_attribution.low: 5 numbers, not 4",
        ),
        (
            |f| f.attributions[1].high[3] = f64::NAN,
            "refusal 4: expected_attribution.high[3]: NaN, not a finite number",
        ),
        (|f| f.fails = Some(1), "the forest failed: call 1"),
        (|f| f.fails = Some(2), "the forest failed: call 2"),
        (|f| f.fails = Some(3), "the forest failed: call 3"),
        (|f| f.fails = Some(4), "the forest failed: call 4"),
        (|f| f.fails = Some(5), "the forest failed: call 5"),
        (|f| f.fails = Some(6), "the forest failed: call 6"),
    ]
}
