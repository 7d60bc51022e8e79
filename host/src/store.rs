//! A drawer or a site as bytes, to be kept over a restart.
//!
//! All numbers are little-endian and stand without gaps:
//!
//! | bytes | what |
//! |---|---|
//! | 8 | `wwdrawer` of a drawer, `wwpooled` of a site |
//! | 4 | the version, [`STORE_VERSION`] |
//! | 4 | how many bytes there are in all |
//! | 1310 or 61472 | the watch's state or the site's pool, as the library keeps it |
//! | | then of the drawer, or of each of the site's in the order of its list: |
//! | 1, 4, 4, 8 | the last reading's strategy, score, threshold, `values_seen` |
//! | 4 | D, how long the last anomaly's points are; 0 if there is none, and then no more of it |
//! | 4, 8, 4, 4 | the last anomaly's relative index, `values_seen`, score, grade |
//! | 4 D, 4 D | its expected point, its own point |
//! | 8 D, 8 D | its attribution, high and low |
//! | | and at the end: |
//! | 4 | CRC-32 (the one of zlib and PNG) of all bytes before |

use std::collections::BTreeMap;
use std::error::Error;
use std::fmt;

use crate::drawer::Drawer;
use crate::kept::{Anomaly, Kept};
use crate::pool::Pool;
use crate::records::POOL_BYTES;
use crate::refusal::Refused;
use crate::site::Site;
use crate::state::{self, LARGEST_SEEN, STATE_BYTES};
use crate::types::ScoringStrategy;
use crate::verdict::Attribution;
use crate::watch::Watch;

/// The version of stored bytes that this crate writes and reads.
pub const STORE_VERSION: u32 = 1;

/// Magic, version and length; checksum.
const HEAD: usize = 16;
const TAIL: usize = 4;

/// What is kept of a drawer without an anomaly.
const KEPT: usize = 21;

/// The longest points.
const MOST: usize = 1024;

/// What is stored.
#[derive(Clone, Copy)]
enum Kind {
    Drawer,
    Site,
}

impl Kind {
    fn magic(self) -> [u8; 8] {
        match self {
            Kind::Drawer => *b"wwdrawer",
            Kind::Site => *b"wwpooled",
        }
    }

    /// The shortest store: a drawer without an anomaly, a site without drawers.
    fn least(self) -> usize {
        match self {
            Kind::Drawer => HEAD + STATE_BYTES + KEPT + TAIL,
            Kind::Site => HEAD + POOL_BYTES + TAIL,
        }
    }

    fn another(self) -> StoreError {
        match self {
            Kind::Drawer => StoreError::NotADrawer,
            Kind::Site => StoreError::NotASite,
        }
    }
}

/// Why bytes are no stored drawer or site.
#[derive(Clone, Debug, PartialEq, Eq)]
#[non_exhaustive]
pub enum StoreError {
    /// They do not begin as a stored drawer does.
    NotADrawer,
    /// They do not begin as a stored site does.
    NotASite,
    /// They are of another version.
    Version {
        /// The version that they name.
        found: u32,
    },
    /// They are cut off, or something follows them.
    Length {
        /// How many bytes there are.
        found: usize,
        /// How many there should be, at least.
        wanted: usize,
    },
    /// They were changed: the checksum is another one.
    Damaged,
    /// A number in them is one that no drawer has.
    Number(&'static str),
    /// The library takes no such state.
    State(Refused),
    /// The library takes no such pool.
    Pool(Refused),
}

impl fmt::Display for StoreError {
    fn fmt(&self, f: &mut fmt::Formatter) -> fmt::Result {
        match self {
            StoreError::NotADrawer => write!(f, "store: these bytes are no drawer's"),
            StoreError::NotASite => write!(f, "store: these bytes are no site's"),
            StoreError::Version { found } => write!(
                f,
                "store: version {found}, where this program reads {STORE_VERSION}"
            ),
            StoreError::Length { found, wanted } => {
                write!(f, "store: {found} bytes, not {wanted}")
            }
            StoreError::Damaged => write!(f, "store: damaged, its checksum differs"),
            StoreError::Number(which) => write!(f, "store: no drawer has this {which}"),
            StoreError::State(why) => write!(f, "store: its state gets {why}"),
            StoreError::Pool(why) => write!(f, "store: its pool gets {why}"),
        }
    }
}

impl Error for StoreError {}

/// CRC-32 with the reflected polynomial 0xedb88320.
fn checksum(bytes: &[u8]) -> u32 {
    let mut crc = u32::MAX;
    for byte in bytes {
        crc ^= u32::from(*byte);
        for _ in 0..8 {
            let carry = 0u32.wrapping_sub(crc & 1);
            crc = (crc >> 1) ^ (0xedb8_8320 & carry);
        }
    }
    !crc
}

/// Bytes that are read from the front.
struct Rest<'a>(&'a [u8]);

impl Rest<'_> {
    /// The next bytes; zeros where there are too few, which lengths have ruled out before.
    fn next<const N: usize>(&mut self) -> [u8; N] {
        let mut out = [0; N];
        if let Some((first, rest)) = self.0.split_first_chunk::<N>() {
            out = *first;
            self.0 = rest;
        }
        out
    }

    /// Nothing is left.
    fn end(&self) -> Result<(), StoreError> {
        match self.0 {
            [] => Ok(()),
            _ => Err(StoreError::Number("length")),
        }
    }

    fn u32(&mut self) -> u32 {
        u32::from_le_bytes(self.next())
    }

    fn values_seen(&mut self) -> Result<usize, StoreError> {
        let n = u64::from_le_bytes(self.next());
        let seen = usize::try_from(n).ok().filter(|n| *n <= LARGEST_SEEN);
        seen.ok_or(StoreError::Number("values_seen"))
    }

    fn relative_index(&mut self) -> Result<i32, StoreError> {
        let index = i32::from_le_bytes(self.next());
        let within = (-63..=0).contains(&index).then_some(index);
        within.ok_or(StoreError::Number("relative index"))
    }

    fn single(&mut self) -> f32 {
        f32::from_le_bytes(self.next())
    }

    fn finite(&mut self, which: &'static str) -> Result<f32, StoreError> {
        let x = self.single();
        x.is_finite().then_some(x).ok_or(StoreError::Number(which))
    }

    fn singles(&mut self, n: usize) -> Result<Vec<f32>, StoreError> {
        (0..n).map(|_| self.finite("point")).collect()
    }

    fn doubles(&mut self, n: usize) -> Vec<f64> {
        let one = |_| f64::from_le_bytes(self.next());
        (0..n).map(one).collect()
    }
}

impl Drawer {
    /// The whole of what the drawer keeps, for [`of_bytes`](Drawer::of_bytes) after a restart.
    ///
    /// ```
    /// use withdrawal_watch::{Drawer, StoreError};
    ///
    /// let drawer = Drawer::new(0.01, true, 2)?;
    /// let mut bytes = drawer.to_bytes();
    /// assert_eq!(Drawer::of_bytes(&bytes)?.state_bytes(), drawer.state_bytes());
    ///
    /// let why = Drawer::of_bytes(&bytes[1..]).unwrap_err();
    /// assert_eq!(why, StoreError::NotADrawer);
    /// let why = Drawer::of_bytes(&bytes[..40]).unwrap_err();
    /// assert_eq!(why.to_string(), "store: 40 bytes, not 1351");
    /// bytes[700] ^= 1;
    /// assert_eq!(Drawer::of_bytes(&bytes).unwrap_err(), StoreError::Damaged);
    /// # Ok::<(), Box<dyn std::error::Error>>(())
    /// ```
    pub fn to_bytes(&self) -> Vec<u8> {
        let mut body = self.state_bytes().to_vec();
        put_kept(&mut body, self.kept());
        whole(Kind::Drawer, &body)
    }

    /// The drawer whose [`to_bytes`](Drawer::to_bytes) these are: it gives the same verdicts. Bytes
    /// that are cut off, too many, damaged, of another version, or that no drawer has, are an error.
    pub fn of_bytes(bytes: &[u8]) -> Result<Drawer, StoreError> {
        let mut rest = Rest(checked(Kind::Drawer, bytes)?);
        let watch = Watch::of_state_bytes(&rest.next()).map_err(StoreError::State)?;
        let kept = kept(&mut rest, &watch)?;
        rest.end()?;
        Ok(Drawer::of(watch, kept))
    }
}

impl Site {
    /// The whole of what the site keeps, for [`of_bytes`](Site::of_bytes) after a restart.
    ///
    /// ```
    /// use withdrawal_watch::{Drawer, Site, StoreError};
    ///
    /// let mut site = Site::new();
    /// site.open(7, 0.01, true, 2)?;
    /// let mut bytes = site.to_bytes();
    /// assert_eq!(Site::of_bytes(&bytes)?.pool().as_bytes(), site.pool().as_bytes());
    ///
    /// assert_eq!(Drawer::of_bytes(&bytes).unwrap_err(), StoreError::NotADrawer);
    /// let why = Site::of_bytes(&bytes[..40]).unwrap_err();
    /// assert_eq!(why.to_string(), "store: 40 bytes, not 61513");
    /// bytes[700] ^= 1;
    /// assert_eq!(Site::of_bytes(&bytes).unwrap_err(), StoreError::Damaged);
    /// # Ok::<(), Box<dyn std::error::Error>>(())
    /// ```
    pub fn to_bytes(&self) -> Vec<u8> {
        let mut body = self.pool().as_bytes().to_vec();
        for drawer in self.pool().list() {
            put_kept(&mut body, &self.kept(drawer));
        }
        whole(Kind::Site, &body)
    }

    /// The site whose [`to_bytes`](Site::to_bytes) these are: its drawers give the same verdicts.
    /// Bytes that are cut off, too many, damaged, of another version, or that no site has, are an
    /// error.
    pub fn of_bytes(bytes: &[u8]) -> Result<Site, StoreError> {
        let (pool, rest) = checked(Kind::Site, bytes)?.split_at(POOL_BYTES);
        let pool = Pool::from_bytes(pool).map_err(StoreError::Pool)?;
        let mut rest = Rest(rest);
        let mut all = BTreeMap::new();
        for drawer in pool.list() {
            let watch = pool.watch(drawer).map_err(StoreError::State)?;
            all.insert(drawer, kept(&mut rest, &watch)?);
        }
        rest.end()?;
        Ok(Site::of(pool, all))
    }
}

/// What is stored between its head and its checksum.
fn whole(kind: Kind, body: &[u8]) -> Vec<u8> {
    let length = HEAD + body.len() + TAIL;
    let mut out = Vec::with_capacity(length);
    out.extend(kind.magic());
    out.extend(STORE_VERSION.to_le_bytes());
    out.extend((length as u32).to_le_bytes());
    out.extend(body);
    out.extend(checksum(&out).to_le_bytes());
    out
}

/// What stands between head and checksum of bytes that are whole.
fn checked(kind: Kind, bytes: &[u8]) -> Result<&[u8], StoreError> {
    let length = |wanted| StoreError::Length {
        found: bytes.len(),
        wanted,
    };
    let mut head = Rest(bytes);
    if head.next() != kind.magic() && !kind.magic().starts_with(bytes) {
        return Err(kind.another());
    }
    if bytes.len() < HEAD {
        return Err(length(kind.least()));
    }
    let found = head.u32();
    if found != STORE_VERSION {
        return Err(StoreError::Version { found });
    }
    let wanted = (head.u32() as usize).max(kind.least());
    if bytes.len() != wanted {
        return Err(length(wanted));
    }
    let (body, tail) = bytes.split_at(wanted - TAIL);
    if checksum(body) != Rest(tail).u32() {
        return Err(StoreError::Damaged);
    }
    Ok(&body[HEAD..])
}

fn put_kept(out: &mut Vec<u8>, kept: &Kept) {
    out.push(kept.scoring_strategy.code());
    out.extend(kept.score.to_le_bytes());
    out.extend(kept.threshold.to_le_bytes());
    out.extend((kept.values_seen as u64).to_le_bytes());
    match &kept.anomaly {
        Some(anomaly) => put_anomaly(out, anomaly),
        None => out.extend([0; 4]),
    }
}

/// What the drawer of this watch keeps.
fn kept(rest: &mut Rest, watch: &Watch) -> Result<Kept, StoreError> {
    if rest.0.len() < KEPT {
        return Err(StoreError::Number("length"));
    }
    let strategy = rest.next::<1>()[0];
    Ok(Kept {
        scoring_strategy: ScoringStrategy::of_code(strategy)
            .ok_or(StoreError::Number("strategy"))?,
        score: rest.finite("score")?,
        threshold: rest.finite("threshold")?,
        values_seen: rest.values_seen()?,
        anomaly: anomaly(rest, state::base_dimension(watch.state_bytes()))?,
    })
}

fn put_anomaly(out: &mut Vec<u8>, a: &Anomaly) {
    out.extend((a.anomalous_rcf_point.len() as u32).to_le_bytes());
    out.extend(a.relative_index.to_le_bytes());
    out.extend((a.values_seen as u64).to_le_bytes());
    out.extend(a.score.to_le_bytes());
    out.extend(a.grade.to_le_bytes());
    for list in [&a.expected_rcf_point, &a.anomalous_rcf_point] {
        list.iter().for_each(|x| out.extend(x.to_le_bytes()));
    }
    for list in [&a.attribution.high, &a.attribution.low] {
        list.iter().for_each(|x| out.extend(x.to_le_bytes()));
    }
}

/// The last anomaly, if there is one.
fn anomaly(rest: &mut Rest, base: usize) -> Result<Option<Anomaly>, StoreError> {
    let d = rest.u32() as usize;
    if d > MOST || d % base.max(1) != 0 {
        return Err(StoreError::Number("dimension"));
    }
    if d == 0 {
        return Ok(None);
    }
    if rest.0.len() < 20 + 24 * d {
        return Err(StoreError::Number("length"));
    }
    Ok(Some(Anomaly {
        relative_index: rest.relative_index()?,
        values_seen: rest.values_seen()?,
        score: rest.finite("score")?,
        grade: rest.single(),
        expected_rcf_point: rest.singles(d)?,
        anomalous_rcf_point: rest.singles(d)?,
        attribution: Attribution {
            high: rest.doubles(d),
            low: rest.doubles(d),
        },
    }))
}

#[cfg(test)]
mod tests {
    use super::checksum;

    #[test]
    fn the_checksum_that_zlib_has() {
        assert_eq!(checksum(b""), 0);
        assert_eq!(checksum(b"123456789"), 0xcbf4_3926);
    }
}
