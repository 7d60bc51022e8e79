//! A site's drawers, which ask the forest by themselves.

use std::collections::BTreeMap;

use crate::asking;
use crate::drawer::Drawer;
use crate::forest::Forest;
use crate::kept::Kept;
use crate::pool::Pool;
use crate::reading::Reading;
use crate::refusal::Refused;
use crate::verdict::Verdict;
use crate::withdrawal::{NotJudged, Withdrawal};

/// Up to thirty drawers of a site, by their numbers: a [`Pool`] of their states, and beside it what
/// each needs from one withdrawal to the next. Each takes a point, asks the [`Forest`] and judges as
/// a [`Drawer`] alone would, whatever becomes of the others.
///
/// ```
/// use withdrawal_watch::{Attribution, Forest, Site, Verdict, Withdrawal};
///
/// /// Everything is usual that is near 2.
/// struct Around2;
///
/// impl Forest for Around2 {
///     type Error = std::convert::Infallible;
///
///     fn score(&self, point: &[f32]) -> Result<f64, Self::Error> {
///         Ok(1.0 + point.iter().map(|x| (x - 2.0).abs() as f64).sum::<f64>())
///     }
///     fn attribution(&self, point: &[f32]) -> Result<Attribution, Self::Error> {
///         let high = point.iter().map(|x| (x - 2.0).max(0.0).into()).collect();
///         let low = point.iter().map(|x| (2.0 - x).max(0.0).into()).collect();
///         Ok(Attribution { high, low })
///     }
///     fn density_interpolant(&self, point: &[f32]) -> Result<Attribution, Self::Error> {
///         self.attribution(point)
///     }
///     fn near_neighbor_list(&self, _: &[f32], _: usize) -> Result<Vec<f32>, Self::Error> {
///         Ok(vec![2.0; 4])
///     }
///     fn conditional_field(
///         &self, _: &[usize], _: &[f32], _: f64, _: bool, _: usize,
///     ) -> Result<Vec<f32>, Self::Error> {
///         Ok(vec![2.0; 4])
///     }
/// }
///
/// let mut site = Site::new();
/// site.open(7, 0.01, false, 1)?;
/// site.open(12, 0.01, true, 1)?;
/// let usual = Withdrawal {
///     shingle_size: 4, base_dimension: 1, values_seen: 1,
///     rcf_point: &[2.0; 4], scale: &[1.0], shift: &[0.0], difference_deviations: &[0.5],
///     ..Withdrawal::default()
/// };
/// assert_eq!(site.judge(7, &usual, &Around2)?, Verdict::Quiet { threshold: 1.5 });
/// let more = Withdrawal { rcf_point: &[2.0, 2.0, 2.0, 9.0], ..usual };
/// assert!(matches!(site.judge(12, &more, &Around2)?, Verdict::Raised { .. }));
/// assert_eq!(format!("{:.1}", site.drawer(7)?), "mean 1.0, deviation 0.0");
///
/// let again = Site::of_bytes(&site.to_bytes())?; // as after a restart
/// assert_eq!(again.pool().list(), [12, 7]);
/// # Ok::<(), Box<dyn std::error::Error>>(())
/// ```
#[derive(Clone, Debug, Default)]
pub struct Site {
    pool: Pool,
    /// What each drawer of the pool keeps.
    kept: BTreeMap<u32, Kept>,
}

impl Site {
    /// A site without drawers.
    pub fn new() -> Site {
        Site::default()
    }

    pub(crate) fn of(pool: Pool, kept: BTreeMap<u32, Kept>) -> Site {
        Site { pool, kept }
    }

    /// As [`Pool::open`]. Refusals: 11, 12, then 1, 2.
    pub fn open(
        &mut self,
        drawer: u32,
        discount: f64,
        auto_adjust: bool,
        base_dimension: usize,
    ) -> Result<(), Refused> {
        self.pool
            .open(drawer, discount, auto_adjust, base_dimension)?;
        self.kept.insert(drawer, Kept::default());
        Ok(())
    }

    /// As [`Pool::remove`]. Refusal: 11.
    ///
    /// ```
    /// use withdrawal_watch::Site;
    ///
    /// let mut site = Site::new();
    /// site.open(7, 0.01, false, 1)?;
    /// site.remove(7)?;
    /// assert_eq!(site.drawer(7).unwrap_err().to_string(), "refusal 11: drawer: 7, not in the pool");
    /// # Ok::<(), withdrawal_watch::Refused>(())
    /// ```
    pub fn remove(&mut self, drawer: u32) -> Result<(), Refused> {
        self.pool.remove(drawer)?;
        self.kept.remove(&drawer);
        Ok(())
    }

    /// As [`Pool::set_z_factor`]. Refusal: 11.
    pub fn set_z_factor(&mut self, drawer: u32, factor: f32) -> Result<(), Refused> {
        self.pool.set_z_factor(drawer, factor)
    }

    /// As [`Pool::set_lower_threshold`]. Refusal: 11.
    pub fn set_lower_threshold(&mut self, drawer: u32, lower: f32) -> Result<(), Refused> {
        self.pool.set_lower_threshold(drawer, lower)
    }

    /// As [`Pool::set_initial_threshold`]. Refusal: 11.
    pub fn set_initial_threshold(&mut self, drawer: u32, initial: f32) -> Result<(), Refused> {
        self.pool.set_initial_threshold(drawer, initial)
    }

    /// As [`Pool::set_horizon`]. Refusals: 11, then 7.
    pub fn set_horizon(&mut self, drawer: u32, horizon: f32) -> Result<(), Refused> {
        self.pool.set_horizon(drawer, horizon)
    }

    /// As [`Drawer::judge`], of one of the site's drawers. Refusals: 11, then 2 to 6. A drawer that
    /// is not there costs no call of the forest.
    pub fn judge<F: Forest + ?Sized>(
        &mut self,
        drawer: u32,
        withdrawal: &Withdrawal,
        forest: &F,
    ) -> Result<Verdict, NotJudged<F::Error>> {
        let mut watch = self.pool.watch(drawer)?;
        let kept = self.kept.entry(drawer).or_default();
        let pool = &mut self.pool;
        let settle = |reading: &Reading| pool.judge(drawer, reading).map(drop);
        let judged = asking::judge(&mut watch, kept, withdrawal, forest, settle)?;
        kept.remember(withdrawal, judged.score, &judged.trial.verdict);
        Ok(judged.trial.verdict)
    }

    /// A drawer as it stands, to look at, to print, or to go on with elsewhere: a copy, whose
    /// changes do not reach the site. Refusals: 11, then 2 as of [`Pool::watch`].
    pub fn drawer(&self, drawer: u32) -> Result<Drawer, Refused> {
        let watch = self.pool.watch(drawer)?;
        Ok(Drawer::of(watch, self.kept(drawer)))
    }

    /// The drawers' states: which drawers there are, and all that the library keeps of them.
    pub fn pool(&self) -> &Pool {
        &self.pool
    }

    pub(crate) fn kept(&self, drawer: u32) -> Kept {
        self.kept.get(&drawer).cloned().unwrap_or_default()
    }
}
