//! The states of a site's drawers in one block of bytes.

use std::fmt;

use crate::calls::pool as calls;
use crate::culprit;
use crate::reading::Reading;
use crate::records::{self, POOL_BYTES, POOL_RECORDS};
use crate::refusal::{Refusal, Refused};
use crate::room::Room;
use crate::verdict::Verdict;
use crate::watch::Watch;

/// A pool of thirty records of a fixed size, each with room for the watch over one drawer: up to
/// thirty drawers in one block of [`POOL_BYTES`] bytes, which may be stored and read back as it is.
/// (Document 02 of the project calls it the chest.)
///
/// A drawer goes by its number, 1 to 65,535. The records in use form the used chain, the newest
/// drawer first, all others the free chain. What is judged or set in one drawer changes nothing of
/// another's. As of a [`Watch`], the caller asks the forest and keeps each drawer's last descriptor;
/// a [`Site`](crate::Site) does both.
///
/// A refused call changes no byte. 11, then 12, come before 1 to 7.
///
/// ```
/// use withdrawal_watch::{LentAttribution, Pool, Reading, Verdict};
///
/// let mut pool = Pool::new();
/// pool.open(7, 0.01, false, 1)?;
/// pool.open(12, 0.01, true, 1)?;
/// assert_eq!(pool.list(), [12, 7]);
/// let even = LentAttribution { high: &[0.25; 4], low: &[0.0; 4] };
/// let reading = Reading {
///     shingle_size: 4, base_dimension: 1, values_seen: 1, score: 1.25,
///     rcf_point: &[2.0, 1.0, 2.0, 2.0], median: &[2.0; 4],
///     scale: &[1.0], shift: &[0.0], difference_deviations: &[0.5],
///     attribution: even, expected_attribution: even, ..Reading::default()
/// };
/// assert_eq!(pool.judge(7, &reading)?, Verdict::Quiet { threshold: 1.5 });
/// assert_eq!(pool.watch(7)?.primary_mean(), Some(1.25));
/// assert_eq!(pool.watch(12)?.primary_mean(), None);
///
/// let mut again = Pool::from_bytes(pool.as_bytes())?;
/// again.remove(12)?;
/// assert_eq!(again.list(), [7]);
/// # Ok::<(), withdrawal_watch::Refused>(())
/// ```
#[derive(Clone)]
pub struct Pool {
    bytes: Box<[u8; POOL_BYTES]>,
    room: Room,
}

impl Pool {
    /// A pool without drawers.
    ///
    /// ```
    /// use withdrawal_watch::{Pool, POOL_BYTES, POOL_RECORDS};
    ///
    /// let pool = Pool::new();
    /// assert!(pool.is_empty());
    /// assert_eq!((POOL_BYTES, POOL_RECORDS), (61_472, 30));
    /// ```
    pub fn new() -> Pool {
        let mut bytes = vec![0; POOL_BYTES];
        calls::lay_out(&mut bytes).expect("a length that the library has");
        Pool::holding(bytes)
    }

    /// The pool whose [`as_bytes`](Pool::as_bytes) these are. Refusal: 13, where the bytes are no
    /// pool's, and what is wrong with them.
    ///
    /// A pool is not looked at further: a drawer in it may have a state that every judgment is
    /// refused for, by 2 or 6.
    ///
    /// ```
    /// use withdrawal_watch::Pool;
    ///
    /// let mut pool = Pool::new();
    /// pool.open(7, 0.01, false, 1)?;
    /// let mut bytes = pool.as_bytes().to_vec();
    /// assert_eq!(Pool::from_bytes(&bytes)?.list(), [7]);
    ///
    /// let why = Pool::from_bytes(&bytes[1..]).unwrap_err();
    /// assert_eq!(why.to_string(), "refusal 13: length: 61,471 bytes, not 61,472");
    /// bytes[0] = 2;
    /// let why = Pool::from_bytes(&bytes).unwrap_err();
    /// assert_eq!(why.about(), "count: 2, where the used chain's length is 1");
    /// # Ok::<(), withdrawal_watch::Refused>(())
    /// ```
    pub fn from_bytes(bytes: &[u8]) -> Result<Pool, Refused> {
        calls::list(bytes).map_err(|refusal| culprit::of_pool(refusal, bytes))?;
        Ok(Pool::holding(bytes.to_vec()))
    }

    /// Bytes that the library has just accepted, so they are of its length.
    fn holding(bytes: Vec<u8>) -> Pool {
        let bytes = bytes.into_boxed_slice().try_into();
        Pool {
            bytes: bytes.expect("a length that the library has"),
            room: Room::default(),
        }
    }

    /// All of the pool, as the library keeps it.
    ///
    /// ```
    /// # use withdrawal_watch::Pool;
    /// let mut pool = Pool::new();
    /// let before = *pool.as_bytes();
    /// assert!(pool.remove(7).is_err());
    /// assert_eq!(pool.as_bytes(), &before);
    /// ```
    pub fn as_bytes(&self) -> &[u8; POOL_BYTES] {
        &self.bytes
    }

    /// Opens a drawer that has seen nothing, in the first free record; it comes first in the
    /// [list](Pool::list). What follows its number is as for [`Watch::new`]. Refusals: 11, 12, then
    /// 1, 2.
    ///
    /// ```
    /// use withdrawal_watch::{Pool, Refusal};
    ///
    /// let mut pool = Pool::new();
    /// pool.open(65_535, 0.01, true, 16)?;
    /// let said = |why: withdrawal_watch::Refused| why.to_string();
    /// let again = pool.open(65_535, 1.5, true, 16).map_err(said);
    /// assert_eq!(again, Err("refusal 11: drawer: 65,535, there already".to_string()));
    /// let none = pool.open(0, 0.01, true, 16).map_err(said);
    /// assert_eq!(none, Err("refusal 11: drawer: 0, not 1 to 65,535".to_string()));
    /// assert_eq!(pool.open(2, 1.5, true, 16).unwrap_err().refusal(), Refusal::Discount);
    /// # Ok::<(), withdrawal_watch::Refused>(())
    /// ```
    pub fn open(
        &mut self,
        drawer: u32,
        discount: f64,
        auto_adjust: bool,
        base_dimension: usize,
    ) -> Result<(), Refused> {
        let bytes = &mut self.bytes[..];
        calls::open(bytes, drawer, discount, auto_adjust, base_dimension).map_err(|refusal| {
            match refusal {
                Refusal::Discount | Refusal::Range => {
                    culprit::of_new(refusal, discount, base_dimension)
                }
                _ => culprit::of_drawer(refusal, &self.bytes, drawer),
            }
        })
    }

    /// Removes a drawer with all that it has counted. Its record is the next one to be opened.
    /// Refusal: 11.
    ///
    /// ```
    /// # use withdrawal_watch::Pool;
    /// let mut pool = Pool::new();
    /// let empty = *pool.as_bytes();
    /// pool.open(7, 0.01, true, 16)?;
    /// pool.remove(7)?;
    /// assert_eq!(pool.as_bytes(), &empty);
    /// assert_eq!(pool.remove(7).unwrap_err().to_string(), "refusal 11: drawer: 7, not in the pool");
    /// # Ok::<(), withdrawal_watch::Refused>(())
    /// ```
    pub fn remove(&mut self, drawer: u32) -> Result<(), Refused> {
        calls::remove(&mut self.bytes[..], drawer)
            .map_err(|refusal| culprit::of_drawer(refusal, &self.bytes, drawer))
    }

    /// The drawers' numbers, the newest first.
    ///
    /// ```
    /// # use withdrawal_watch::Pool;
    /// let mut pool = Pool::new();
    /// for drawer in [3, 1, 2] {
    ///     pool.open(drawer, 0.01, false, 1)?;
    /// }
    /// assert_eq!(pool.list(), [2, 1, 3]);
    /// # Ok::<(), withdrawal_watch::Refused>(())
    /// ```
    pub fn list(&self) -> Vec<u32> {
        // No call breaks a rule of the pool's, so that 13 cannot come up.
        let numbers = calls::list(&self.bytes[..]).unwrap_or([0; POOL_RECORDS]);
        numbers.into_iter().take_while(|n| *n != 0).collect()
    }

    /// Whether there is a drawer with this number.
    ///
    /// ```
    /// # use withdrawal_watch::Pool;
    /// let mut pool = Pool::new();
    /// pool.open(7, 0.01, false, 1)?;
    /// assert!(pool.contains(7) && !pool.contains(0));
    /// # Ok::<(), withdrawal_watch::Refused>(())
    /// ```
    pub fn contains(&self, drawer: u32) -> bool {
        self.list().contains(&drawer)
    }

    /// How many drawers there are, 0 to 30.
    ///
    /// ```
    /// # use withdrawal_watch::{Pool, Refusal};
    /// let mut pool = Pool::new();
    /// for drawer in 1..=30 {
    ///     pool.open(drawer, 0.01, false, 1)?;
    /// }
    /// assert_eq!(pool.len(), 30);
    /// let why = pool.open(31, 0.01, false, 1).unwrap_err();
    /// assert_eq!(why.to_string(), "refusal 12: drawer: 31, where all 30 records are used");
    /// # Ok::<(), withdrawal_watch::Refused>(())
    /// ```
    pub fn len(&self) -> usize {
        self.list().len()
    }

    /// Whether there is no drawer.
    pub fn is_empty(&self) -> bool {
        self.len() == 0
    }

    /// Judges a drawer's next reading and counts its score, as [`Watch::judge`] does. Refusals: 11,
    /// then 2 to 6.
    ///
    /// ```
    /// use withdrawal_watch::{Pool, Reading, Refusal};
    ///
    /// let mut pool = Pool::new();
    /// pool.open(7, 0.01, false, 1)?;
    /// let why = pool.judge(8, &Reading::default()).unwrap_err();
    /// assert_eq!(why.to_string(), "refusal 11: drawer: 8, not in the pool");
    /// let why = pool.judge(7, &Reading::default()).unwrap_err();
    /// assert_eq!(why.to_string(), "refusal 2: shingle_size: 0, not 1 to 64");
    /// # Ok::<(), withdrawal_watch::Refused>(())
    /// ```
    pub fn judge(&mut self, drawer: u32, reading: &Reading) -> Result<Verdict, Refused> {
        let bytes = &mut self.bytes[..];
        let said = self
            .room
            .judge(reading, |out| calls::judge(bytes, drawer, reading, out));
        said.map_err(|refusal| match records::state_of(&self.bytes, drawer) {
            Some(state) => culprit::of_reading(refusal, reading, &state),
            None => culprit::of_drawer(refusal, &self.bytes, drawer),
        })
    }

    /// As [`Watch::set_z_factor`], of a drawer. A setting that the drawer has already is not written.
    /// Refusal: 11.
    ///
    /// ```
    /// # use withdrawal_watch::Pool;
    /// let mut pool = Pool::new();
    /// pool.open(7, 0.01, false, 1)?;
    /// pool.set_z_factor(7, 3.0)?;
    /// # Ok::<(), withdrawal_watch::Refused>(())
    /// ```
    pub fn set_z_factor(&mut self, drawer: u32, factor: f32) -> Result<(), Refused> {
        calls::set_z_factor(&mut self.bytes[..], drawer, factor)
            .map_err(|refusal| self.of_setting(refusal, drawer, "z_factor", factor))
    }

    /// As [`Watch::set_lower_threshold`], of a drawer. Refusal: 11.
    ///
    /// ```
    /// # use withdrawal_watch::Pool;
    /// let mut pool = Pool::new();
    /// pool.open(7, 0.01, false, 1)?;
    /// pool.set_lower_threshold(7, 1.0)?;
    /// # Ok::<(), withdrawal_watch::Refused>(())
    /// ```
    pub fn set_lower_threshold(&mut self, drawer: u32, lower: f32) -> Result<(), Refused> {
        calls::set_lower_threshold(&mut self.bytes[..], drawer, lower)
            .map_err(|refusal| self.of_setting(refusal, drawer, "lower_threshold", lower))
    }

    /// As [`Watch::set_initial_threshold`], of a drawer. Refusal: 11.
    ///
    /// ```
    /// # use withdrawal_watch::Pool;
    /// let mut pool = Pool::new();
    /// pool.open(7, 0.01, false, 1)?;
    /// pool.set_initial_threshold(7, 1.75)?;
    /// # Ok::<(), withdrawal_watch::Refused>(())
    /// ```
    pub fn set_initial_threshold(&mut self, drawer: u32, initial: f32) -> Result<(), Refused> {
        calls::set_initial_threshold(&mut self.bytes[..], drawer, initial)
            .map_err(|refusal| self.of_setting(refusal, drawer, "initial_threshold", initial))
    }

    /// As [`Watch::set_horizon`], of a drawer. Refusals: 11, then 7.
    ///
    /// ```
    /// # use withdrawal_watch::Pool;
    /// let mut pool = Pool::new();
    /// pool.open(7, 0.01, false, 1)?;
    /// pool.set_horizon(7, 1.0)?;
    /// assert_eq!(pool.set_horizon(7, 1.5).unwrap_err().to_string(), "refusal 7: horizon: 1.5, not 0 to 1");
    /// assert_eq!(pool.set_horizon(8, 1.5).unwrap_err().number(), 11);
    /// # Ok::<(), withdrawal_watch::Refused>(())
    /// ```
    pub fn set_horizon(&mut self, drawer: u32, horizon: f32) -> Result<(), Refused> {
        calls::set_horizon(&mut self.bytes[..], drawer, horizon)
            .map_err(|refusal| self.of_setting(refusal, drawer, "horizon", horizon))
    }

    fn of_setting(&self, refusal: Refusal, drawer: u32, name: &str, value: f32) -> Refused {
        match records::state_of(&self.bytes, drawer) {
            Some(_) => culprit::of_setting(refusal, name, value),
            None => culprit::of_drawer(refusal, &self.bytes, drawer),
        }
    }

    /// The watch over a drawer as it stands, to look at or to go on with elsewhere: a copy, whose
    /// changes do not reach the pool. Refusals: 11, then 2 as of [`Watch::of_state_bytes`].
    ///
    /// ```
    /// use withdrawal_watch::{Pool, Watch};
    ///
    /// let mut pool = Pool::new();
    /// pool.open(7, 0.01, false, 1)?;
    /// let alone = Watch::new(0.01, false, 1)?;
    /// assert_eq!(pool.watch(7)?.state_bytes(), alone.state_bytes());
    /// assert_eq!(pool.watch(8).unwrap_err().number(), 11);
    /// # Ok::<(), withdrawal_watch::Refused>(())
    /// ```
    pub fn watch(&self, drawer: u32) -> Result<Watch, Refused> {
        match records::state_of(&self.bytes, drawer) {
            Some(state) => Watch::of_state_bytes(&state),
            None => Err(culprit::of_drawer(Refusal::Drawer, &self.bytes, drawer)),
        }
    }
}

impl Default for Pool {
    fn default() -> Pool {
        Pool::new()
    }
}

impl fmt::Debug for Pool {
    fn fmt(&self, f: &mut fmt::Formatter) -> fmt::Result {
        f.debug_struct("Pool")
            .field("drawers", &self.list())
            .finish_non_exhaustive()
    }
}
