//! A drawer that asks the forest by itself.

use std::fmt;

use crate::asking;
use crate::forest::Forest;
use crate::kept::{Anomaly, Kept};
use crate::reading::LastDescriptor;
use crate::refusal::Refused;
use crate::state::STATE_BYTES;
use crate::verdict::Verdict;
use crate::watch::Watch;
use crate::withdrawal::{NotJudged, Withdrawal};

/// The watch over one drawer with all that it needs from one withdrawal to the next: it takes a
/// point, asks the [`Forest`] and judges.
///
/// It keeps the last descriptor, by these rules:
///
/// | A reading that was | leaves |
/// |---|---|
/// | raised | its score, threshold, strategy and `values_seen`; it is the last anomaly, with both points, relative index, attribution, score and grade |
/// | corrected, quiet | its score, threshold, strategy and `values_seen`; the last anomaly stays |
/// | skipped | the same, its threshold being 0 as in the Rust's descriptor |
/// | refused, or the forest failed | nothing: the drawer is as it was |
///
/// A threshold that is not finite is not kept: the last finite one stays, since the library refuses
/// every reading whose last descriptor has a number that is not finite (4), and a refused reading
/// would never replace it. Such thresholds come up: after DISTANCE scores 3e38 and 1 the next one is
/// infinite; with [`set_initial_threshold`](Drawer::set_initial_threshold) of infinity all of them
/// are, and no number at all once twenty scores are counted. The Rust would go on with such a
/// threshold, which only its test for a candidate reads; scores and statistics are the Rust's.
///
/// ```
/// use withdrawal_watch::{Attribution, Drawer, Forest, Verdict, Withdrawal};
///
/// /// Everything is usual that is near 2.
/// struct Around2;
///
/// impl Forest for Around2 {
///     type Error = std::convert::Infallible;
///
///     fn score(&self, point: &[f32]) -> Result<f64, Self::Error> {
///         Ok(1.0 + point.iter().map(|x| (x - 2.0).abs() as f64).sum::<f64>())
///     }
///     fn attribution(&self, point: &[f32]) -> Result<Attribution, Self::Error> {
///         let high = point.iter().map(|x| (x - 2.0).max(0.0).into()).collect();
///         let low = point.iter().map(|x| (2.0 - x).max(0.0).into()).collect();
///         Ok(Attribution { high, low })
///     }
///     fn density_interpolant(&self, point: &[f32]) -> Result<Attribution, Self::Error> {
///         self.attribution(point)
///     }
///     fn near_neighbor_list(&self, _: &[f32], _: usize) -> Result<Vec<f32>, Self::Error> {
///         Ok(vec![2.0; 4])
///     }
///     fn conditional_field(
///         &self, _: &[usize], _: &[f32], _: f64, _: bool, _: usize,
///     ) -> Result<Vec<f32>, Self::Error> {
///         Ok(vec![2.0; 4])
///     }
/// }
///
/// let mut drawer = Drawer::new(0.01, false, 1)?;
/// let usual = Withdrawal {
///     shingle_size: 4, base_dimension: 1, values_seen: 1,
///     rcf_point: &[2.0; 4], scale: &[1.0], shift: &[0.0], difference_deviations: &[0.5],
///     ..Withdrawal::default()
/// };
/// assert_eq!(drawer.judge(&usual, &Around2)?, Verdict::Quiet { threshold: 1.5 });
/// let more = Withdrawal { values_seen: 2, rcf_point: &[2.0, 2.0, 2.0, 9.0], ..usual };
/// match drawer.judge(&more, &Around2)? {
///     Verdict::Raised { expected_point, .. } => assert_eq!(expected_point, [2.0; 4]),
///     other => panic!("{other:?}"),
/// }
/// # Ok::<(), Box<dyn std::error::Error>>(())
/// ```
#[derive(Clone, Debug)]
pub struct Drawer {
    watch: Watch,
    kept: Kept,
}

impl Drawer {
    /// A drawer that has seen nothing. The arguments are those of [`Watch::new`]. Refusals: 1, 2.
    ///
    /// ```
    /// use withdrawal_watch::Drawer;
    ///
    /// let why = Drawer::new(0.01, false, 17).unwrap_err();
    /// assert_eq!(why.to_string(), "refusal 2: base_dimension: 17, not 1 to 16");
    /// ```
    pub fn new(discount: f64, auto_adjust: bool, base_dimension: usize) -> Result<Drawer, Refused> {
        let watch = Watch::new(discount, auto_adjust, base_dimension)?;
        Ok(Drawer::of(watch, Kept::default()))
    }

    pub(crate) fn of(watch: Watch, kept: Kept) -> Drawer {
        Drawer { watch, kept }
    }

    /// As [`Watch::set_z_factor`].
    pub fn set_z_factor(&mut self, factor: f32) -> Result<(), Refused> {
        self.watch.set_z_factor(factor)
    }

    /// As [`Watch::set_lower_threshold`].
    pub fn set_lower_threshold(&mut self, lower: f32) -> Result<(), Refused> {
        self.watch.set_lower_threshold(lower)
    }

    /// As [`Watch::set_initial_threshold`].
    pub fn set_initial_threshold(&mut self, initial: f32) -> Result<(), Refused> {
        self.watch.set_initial_threshold(initial)
    }

    /// As [`Watch::set_horizon`]. Refusal: 7.
    pub fn set_horizon(&mut self, horizon: f32) -> Result<(), Refused> {
        self.watch.set_horizon(horizon)
    }

    /// Asks the forest about the drawer's next withdrawal, judges it and counts its score. Refusals:
    /// 2 to 6, of the withdrawal or of something that the forest said.
    ///
    /// A withdrawal that is refused for itself costs no call of the forest. Then the judgment is
    /// tried after each answer, with zeros for the answers that are still missing; it stands as soon
    /// as it ended before the first of these.
    pub fn judge<F: Forest + ?Sized>(
        &mut self,
        withdrawal: &Withdrawal,
        forest: &F,
    ) -> Result<Verdict, NotJudged<F::Error>> {
        let (watch, kept) = (&mut self.watch, &self.kept);
        let judged = asking::judge(watch, kept, withdrawal, forest, |_| Ok(()))?;
        self.watch.take(judged.trial.state);
        self.kept
            .remember(withdrawal, judged.score, &judged.trial.verdict);
        Ok(judged.trial.verdict)
    }

    /// As [`Watch::primary_mean`]: `None` while the drawer has no scores.
    pub fn primary_mean(&self) -> Option<f64> {
        self.watch.primary_mean()
    }

    /// As [`Watch::primary_deviation`]: `None` while the drawer has no scores.
    pub fn primary_deviation(&self) -> Option<f64> {
        self.watch.primary_deviation()
    }

    /// What the next reading is told of those before.
    pub fn last_descriptor(&self) -> LastDescriptor<'_> {
        self.kept.descriptor()
    }

    /// The last raised reading, if there is one.
    pub fn last_anomaly(&self) -> Option<&Anomaly> {
        self.kept.anomaly.as_ref()
    }

    /// The `values_seen` of the last reading that was judged; 0 before the first.
    pub fn values_seen(&self) -> usize {
        self.kept.values_seen
    }

    /// The watch's state, as the library keeps it.
    pub fn state_bytes(&self) -> &[u8; STATE_BYTES] {
        self.watch.state_bytes()
    }

    pub(crate) fn kept(&self) -> &Kept {
        &self.kept
    }
}

/// What a dashboard shows of a drawer: mean and deviation of the scores that it has counted, or that
/// there are none. A skipped or refused withdrawal counts no score. Decimals, width, side and fill are
/// those asked for, the left side and spaces if none are.
///
/// ```
/// use withdrawal_watch::Drawer;
///
/// let drawer = Drawer::new(0.01, false, 1)?;
/// assert_eq!(drawer.to_string(), "no scores yet");
/// assert_eq!(format!("{drawer:16.2}|"), "no scores yet   |");
/// # Ok::<(), withdrawal_watch::Refused>(())
/// ```
impl fmt::Display for Drawer {
    fn fmt(&self, f: &mut fmt::Formatter) -> fmt::Result {
        let decimal = |x: f64| match f.precision() {
            Some(places) => format!("{x:.places$}"),
            None => x.to_string(),
        };
        let shown = match (self.primary_mean(), self.primary_deviation()) {
            (Some(mean), Some(deviation)) => {
                format!("mean {}, deviation {}", decimal(mean), decimal(deviation))
            }
            _ => "no scores yet".to_string(),
        };
        // `pad` would take the decimals for a length to cut at.
        let room = f.width().unwrap_or(0).saturating_sub(shown.len());
        let before = match f.align() {
            Some(fmt::Alignment::Right) => room,
            Some(fmt::Alignment::Center) => room / 2,
            _ => 0,
        };
        let [before, behind] = [before, room - before].map(|n| f.fill().to_string().repeat(n));
        write!(f, "{before}{shown}{behind}")
    }
}
