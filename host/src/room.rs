//! Room for what a judgment writes, kept so that only a raised reading allocates.

use crate::bytes::{self, Said, VERDICT};
use crate::calls::Buffers;
use crate::reading::Reading;
use crate::refusal::Refusal;
use crate::types::CorrectionMode;
use crate::verdict::{Attribution, Verdict};

#[derive(Clone, Default)]
pub struct Room {
    expected: Vec<f32>,
    high: Vec<f64>,
    low: Vec<f64>,
}

impl Room {
    /// What the library says of a reading, by a call that is lent these buffers.
    pub fn judge(
        &mut self,
        reading: &Reading,
        call: impl FnOnce(Buffers) -> Result<(), Refusal>,
    ) -> Result<Verdict, Refusal> {
        let d = reading.dimension();
        self.widen(d);
        let mut verdict = [0; VERDICT];
        call(Buffers {
            expected: &mut self.expected[..d],
            high: &mut self.high[..d],
            low: &mut self.low[..d],
            verdict: &mut verdict,
        })?;
        Ok(self.verdict(bytes::said(&verdict), d))
    }

    fn widen(&mut self, d: usize) {
        if self.expected.len() < d {
            self.expected.resize(d, 0.0);
            self.high.resize(d, 0.0);
            self.low.resize(d, 0.0);
        }
    }

    /// The library has these four kinds, the last one 3, and gives every correction its mode.
    fn verdict(&self, said: Said, d: usize) -> Verdict {
        let threshold = said.threshold;
        match said.kind {
            0 => Verdict::Quiet { threshold },
            1 => Verdict::Corrected {
                threshold,
                mode: CorrectionMode::of_code(said.mode).unwrap_or(CorrectionMode::None),
            },
            2 => Verdict::Raised {
                threshold,
                grade: said.grade,
                relative_index: said.relative_index,
                expected_point: self.expected[..d].to_vec(),
                attribution: Attribution {
                    high: self.high[..d].to_vec(),
                    low: self.low[..d].to_vec(),
                },
            },
            _ => Verdict::Skipped,
        }
    }
}
