//! The watch over one drawer's readings, for a caller who lends the forest's results.

use std::fmt;

use crate::calls;
use crate::culprit;
use crate::forest::AskedOfForest;
use crate::reading::Reading;
use crate::refusal::{Refusal, Refused};
use crate::room::Room;
use crate::state::{self, STATE_BYTES};
use crate::verdict::Verdict;

/// The watch over one drawer: it judges the drawer's readings in turn. The caller asks the forest
/// and keeps the last descriptor; a [`Drawer`](crate::Drawer) does both by itself.
#[derive(Clone)]
pub struct Watch {
    state: [u8; STATE_BYTES],
    room: Room,
}

/// What a judgment would leave.
pub(crate) struct Trial {
    pub state: [u8; STATE_BYTES],
    pub verdict: Verdict,
}

impl Watch {
    /// A watch that has seen nothing, with a z factor of 2.5. (One that was stored keeps its own,
    /// whichever a new watch had then.)
    ///
    /// `discount` says how fast old scores fade, 0 for not at all; with `auto_adjust` the watch
    /// takes a new level for the drawer's own after some raised readings; `base_dimension` is how
    /// many numbers a row of the point has, 1 to 16. Refusals: 1, 2.
    ///
    /// ```
    /// use withdrawal_watch::{Refusal, Watch};
    ///
    /// assert!(Watch::new(0.01, true, 16).is_ok());
    /// assert_eq!(Watch::new(f64::NAN, true, 17).unwrap_err().refusal(), Refusal::Discount);
    /// assert_eq!(Watch::new(0.01, true, 17).unwrap_err().refusal(), Refusal::Range);
    /// ```
    pub fn new(discount: f64, auto_adjust: bool, base_dimension: usize) -> Result<Watch, Refused> {
        let mut state = [0; STATE_BYTES];
        calls::new(discount, auto_adjust, base_dimension, &mut state)
            .map_err(|refusal| culprit::of_new(refusal, discount, base_dimension))?;
        Ok(Watch::holding(state))
    }

    /// A watch with this state, which nobody has looked at.
    fn holding(state: [u8; STATE_BYTES]) -> Watch {
        Watch {
            state,
            room: Room::default(),
        }
    }

    /// The watch whose [`state_bytes`](Watch::state_bytes) these are. Refused where the library
    /// would refuse every reading of it: a size or a yes/no that no state has (2).
    ///
    /// ```
    /// # use withdrawal_watch::Watch;
    /// let watch = Watch::new(0.01, true, 3)?;
    /// let again = Watch::of_state_bytes(watch.state_bytes())?;
    /// assert_eq!(again.state_bytes(), watch.state_bytes());
    /// assert_eq!(Watch::of_state_bytes(&[7; 1310]).unwrap_err().number(), 2);
    /// # Ok::<(), withdrawal_watch::Refused>(())
    /// ```
    pub fn of_state_bytes(bytes: &[u8; STATE_BYTES]) -> Result<Watch, Refused> {
        let mut watch = Watch::holding(*bytes);
        // A skipped reading changes nothing. Counts that are used up are no reason against a state.
        let skipped = Reading {
            values_seen: 1,
            ..Reading::blank(1, state::base_dimension(bytes))
        };
        match watch.trial(&skipped) {
            Err(why) if why.refusal() != Refusal::Count => Err(why),
            _ => Ok(watch),
        }
    }

    /// Sets how many deviations above the mean the threshold lies; 2.5 at first. Never refused.
    ///
    /// ```
    /// # use withdrawal_watch::Watch;
    /// let mut watch = Watch::new(0.01, false, 1)?;
    /// assert_eq!(watch.state_bytes()[145..149], 2.5f32.to_le_bytes());
    /// watch.set_z_factor(3.0)?;
    /// assert_eq!(watch.state_bytes()[145..149], 3.0f32.to_le_bytes());
    /// # Ok::<(), withdrawal_watch::Refused>(())
    /// ```
    pub fn set_z_factor(&mut self, factor: f32) -> Result<(), Refused> {
        calls::set_z_factor(&mut self.state, factor)
            .map_err(|refusal| culprit::of_setting(refusal, "z_factor", factor))
    }

    /// Sets the smallest threshold for [`ExpectedInverseHeight`] scores; 0.8 at first. Never
    /// refused.
    ///
    /// ```
    /// # use withdrawal_watch::Watch;
    /// let mut watch = Watch::new(0.01, false, 1)?;
    /// watch.set_lower_threshold(1.0)?;
    /// # Ok::<(), withdrawal_watch::Refused>(())
    /// ```
    ///
    /// [`ExpectedInverseHeight`]: crate::ScoringStrategy::ExpectedInverseHeight
    pub fn set_lower_threshold(&mut self, lower: f32) -> Result<(), Refused> {
        calls::set_lower_threshold(&mut self.state, lower)
            .map_err(|refusal| culprit::of_setting(refusal, "lower_threshold", lower))
    }

    /// Sets the threshold for [`ExpectedInverseHeight`] scores until ten are counted; 1.5 at
    /// first. Never refused.
    ///
    /// ```
    /// # use withdrawal_watch::Watch;
    /// let mut watch = Watch::new(0.01, false, 1)?;
    /// watch.set_initial_threshold(1.75)?;
    /// # Ok::<(), withdrawal_watch::Refused>(())
    /// ```
    ///
    /// [`ExpectedInverseHeight`]: crate::ScoringStrategy::ExpectedInverseHeight
    pub fn set_initial_threshold(&mut self, initial: f32) -> Result<(), Refused> {
        calls::set_initial_threshold(&mut self.state, initial)
            .map_err(|refusal| culprit::of_setting(refusal, "initial_threshold", initial))
    }

    /// Sets how much the spread of scores counts against that of their differences, 0 to 1; 0.5
    /// at first. Refusal: 7.
    ///
    /// ```
    /// # use withdrawal_watch::Watch;
    /// let mut watch = Watch::new(0.01, false, 1)?;
    /// watch.set_horizon(1.0)?;
    /// let why = watch.set_horizon(1.5).unwrap_err();
    /// assert_eq!(why.to_string(), "refusal 7: horizon: 1.5, not 0 to 1");
    /// # Ok::<(), withdrawal_watch::Refused>(())
    /// ```
    pub fn set_horizon(&mut self, horizon: f32) -> Result<(), Refused> {
        calls::set_horizon(&mut self.state, horizon)
            .map_err(|refusal| culprit::of_setting(refusal, "horizon", horizon))
    }

    /// Judges the drawer's next reading and counts its score. Refusals: 2 to 6.
    ///
    /// ```
    /// use withdrawal_watch::{LentAttribution, Reading, Verdict, Watch};
    ///
    /// let mut watch = Watch::new(0.01, false, 1)?;
    /// let reading = Reading {
    ///     shingle_size: 4,
    ///     base_dimension: 1,
    ///     values_seen: 5,
    ///     score: 1.75,
    ///     rcf_point: &[2.0, 1.0, 2.0, 9.0],
    ///     scale: &[1.0],
    ///     shift: &[0.0],
    ///     difference_deviations: &[0.5],
    ///     attribution: LentAttribution { high: &[0.0, 0.0, 0.0, 3.5], low: &[0.0; 4] },
    ///     median: &[2.0; 4],
    ///     expected_attribution: LentAttribution { high: &[0.0; 4], low: &[0.0; 4] },
    ///     ..Reading::default()
    /// };
    /// match watch.judge(&reading)? {
    ///     Verdict::Raised { grade, expected_point, .. } => {
    ///         assert_eq!(grade, 1.0);
    ///         assert_eq!(expected_point, [2.0, 1.0, 2.0, 2.0]);
    ///     }
    ///     other => panic!("{other:?}"),
    /// }
    /// # Ok::<(), withdrawal_watch::Refused>(())
    /// ```
    pub fn judge(&mut self, reading: &Reading) -> Result<Verdict, Refused> {
        judge(&mut self.room, &mut self.state, reading)
    }

    /// Within a run of raised readings, with `auto_adjust`, counts the oldest row of a point in the
    /// drawer's statistics, as a judgment does for each corrected reading; otherwise nothing.
    /// Refusals: 2 to 4, 6.
    ///
    /// ```
    /// # use withdrawal_watch::Watch;
    /// let mut watch = Watch::new(0.01, true, 1)?;
    /// let before = *watch.state_bytes();
    /// watch.update_auto_adjust(4, &[2.0, 1.0, 2.0, 9.0])?;
    /// assert_eq!(watch.state_bytes(), &before);
    /// let why = watch.update_auto_adjust(4, &[f32::NAN; 4]).unwrap_err();
    /// assert_eq!(why.to_string(), "refusal 4: rcf_point[0]: NaN, not a finite number");
    /// # Ok::<(), withdrawal_watch::Refused>(())
    /// ```
    pub fn update_auto_adjust(
        &mut self,
        shingle_size: usize,
        point: &[f32],
    ) -> Result<(), Refused> {
        calls::update_auto_adjust(&mut self.state, shingle_size, point).map_err(|refusal| {
            let lent = Reading {
                rcf_point: point,
                ..Reading::blank(shingle_size, state::base_dimension(&self.state))
            };
            culprit::of_reading(refusal, &lent, &self.state)
        })
    }

    /// What a reading whose opening grade is above 0 asks of the forest. Score and corrected score
    /// are not read, but have to be finite; no list is looked at. Refusals: 2, 4, 5.
    ///
    /// ```
    /// use withdrawal_watch::{LastAnomaly, LastDescriptor, Reading, Watch};
    ///
    /// let watch = Watch::new(0.01, true, 1)?;
    /// let last = LastAnomaly { values_seen: 40, ..LastAnomaly::default() };
    /// let reading = Reading {
    ///     shingle_size: 4,
    ///     base_dimension: 1,
    ///     values_seen: 44,
    ///     last_descriptor: LastDescriptor { last_anomaly: Some(last), ..LastDescriptor::default() },
    ///     ..Reading::default()
    /// };
    /// let asked = watch.asked_of_forest(&reading)?;
    /// assert_eq!(asked.gap, 4);
    /// assert!(asked.corrected_score && asked.near_neighbor_list && !asked.new_attribution);
    /// let early = Reading { values_seen: 40, ..reading };
    /// let why = watch.asked_of_forest(&early).unwrap_err();
    /// assert_eq!(why.about(), "values_seen: 40, not later than the last anomaly's 40");
    /// # Ok::<(), withdrawal_watch::Refused>(())
    /// ```
    pub fn asked_of_forest(&self, reading: &Reading) -> Result<AskedOfForest, Refused> {
        calls::asked_of_forest(&self.state, reading)
            .map_err(|refusal| culprit::of_reading(refusal, reading, &self.state))
    }

    /// The mean of the scores counted, the discount weighing older ones less; a score by height counts
    /// as 2 at most. `None` exactly if the weight of the scores is at or below 0, as it is before the first:
    /// a drawer without scores is not a calm one.
    ///
    /// ```
    /// use withdrawal_watch::{LentAttribution, Reading, Watch};
    ///
    /// let mut watch = Watch::new(0.01, false, 1)?;
    /// assert_eq!((watch.primary_mean(), watch.primary_deviation()), (None, None));
    /// let reading = Reading {
    ///     shingle_size: 1, base_dimension: 1, values_seen: 1, score: 1.25,
    ///     rcf_point: &[2.0], median: &[2.0],
    ///     scale: &[1.0], shift: &[0.0], difference_deviations: &[0.5],
    ///     attribution: LentAttribution { high: &[0.0], low: &[0.0] },
    ///     expected_attribution: LentAttribution { high: &[0.0], low: &[0.0] },
    ///     ..Reading::default()
    /// };
    /// watch.judge(&reading)?;
    /// assert_eq!((watch.primary_mean(), watch.primary_deviation()), (Some(1.25), Some(0.0)));
    /// # Ok::<(), withdrawal_watch::Refused>(())
    /// ```
    pub fn primary_mean(&self) -> Option<f64> {
        calls::mean(&state::primary_statistic(&self.state))
    }

    /// The deviation of the scores counted; `None` as of [`primary_mean`](Watch::primary_mean). Of one
    /// score it is 0.
    pub fn primary_deviation(&self) -> Option<f64> {
        calls::deviation(&state::primary_statistic(&self.state))
    }

    /// What judging a reading would leave. The watch stays as it is.
    pub(crate) fn trial(&mut self, reading: &Reading) -> Result<Trial, Refused> {
        let mut state = self.state;
        let verdict = judge(&mut self.room, &mut state, reading)?;
        Ok(Trial { state, verdict })
    }

    /// Takes what a trial left.
    pub(crate) fn take(&mut self, state: [u8; STATE_BYTES]) {
        self.state = state;
    }

    /// The state, as the library keeps it.
    ///
    /// ```
    /// # use withdrawal_watch::Watch;
    /// let mut watch = Watch::new(0.01, false, 1)?;
    /// let before = *watch.state_bytes();
    /// assert!(watch.set_horizon(-1.0).is_err());
    /// assert_eq!(watch.state_bytes(), &before);
    /// # Ok::<(), withdrawal_watch::Refused>(())
    /// ```
    pub fn state_bytes(&self) -> &[u8; STATE_BYTES] {
        &self.state
    }
}

fn judge(
    room: &mut Room,
    state: &mut [u8; STATE_BYTES],
    reading: &Reading,
) -> Result<Verdict, Refused> {
    room.judge(reading, |out| calls::judge(state, reading, out))
        .map_err(|refusal| culprit::of_reading(refusal, reading, state))
}

impl fmt::Debug for Watch {
    fn fmt(&self, f: &mut fmt::Formatter) -> fmt::Result {
        f.debug_struct("Watch").finish_non_exhaustive()
    }
}
