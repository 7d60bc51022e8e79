//! Why a call was not carried out.

use std::error::Error;
use std::fmt;

/// The reasons for a refusal, by number. Of 1 to 8 the smallest that applies is given; before them
/// come 9, then 10, of a cabinet's export, and 13, then 11, then 12, of a pool.
///
/// ```
/// use withdrawal_watch::Refusal;
///
/// assert_eq!(Refusal::Length.number(), 3);
/// assert_eq!(Refusal::of_number(3), Refusal::Length);
/// assert_eq!(Refusal::of_number(77).number(), 77);
/// ```
#[derive(Clone, Copy, Debug, PartialEq, Eq, Hash)]
#[non_exhaustive]
pub enum Refusal {
    /// 1: the discount is not in [0, 1).
    Discount,
    /// 2: shingle size or base dimension is out of range, or the base is not the watch's.
    Range,
    /// 3: a list is not of its length.
    Length,
    /// 4: a number of the reading or of the last descriptor is infinite or NaN.
    NotFinite,
    /// 5: `values_seen` is 0, too large or not later than the last anomaly's; a gap of 0.
    ValuesSeen,
    /// 6: a count in the watch's state is outside 0 to 16,777,215.
    Count,
    /// 7: the horizon is not in [0, 1].
    Horizon,
    /// 8: an attribution cannot be cut into blocks. No call of this crate gives it.
    Blocks,
    /// 9: a row of a cabinet's export without three fields, a broken quote, a wrong or missing header. No call of this crate gives it.
    Row,
    /// 10: a field of such a row that is no number as its column wants one. No call of this crate gives it.
    Field,
    /// 11: the drawer is not in the pool, is there already on opening, or is not 1 to 65,535.
    Drawer,
    /// 12: a drawer is opened where all records of the pool are used.
    Full,
    /// 13: a pool or a listing's buffer of another length, or a pool whose chains, count, drawer
    /// numbers or yes/no bytes break its rules.
    Pool,
    /// A number that has no name here.
    Other(u8),
}

/// Each named refusal with its number.
const NUMBERED: [(u8, Refusal); 13] = [
    (1, Refusal::Discount),
    (2, Refusal::Range),
    (3, Refusal::Length),
    (4, Refusal::NotFinite),
    (5, Refusal::ValuesSeen),
    (6, Refusal::Count),
    (7, Refusal::Horizon),
    (8, Refusal::Blocks),
    (9, Refusal::Row),
    (10, Refusal::Field),
    (11, Refusal::Drawer),
    (12, Refusal::Full),
    (13, Refusal::Pool),
];

impl Refusal {
    /// Its number.
    pub fn number(self) -> u8 {
        if let Refusal::Other(number) = self {
            return number;
        }
        let named = NUMBERED.iter().find(|(_, refusal)| *refusal == self);
        named.map_or(0, |(number, _)| *number)
    }

    /// The refusal with this number.
    pub fn of_number(number: u8) -> Refusal {
        let named = NUMBERED.iter().find(|(its, _)| *its == number);
        named.map_or(Refusal::Other(number), |(_, refusal)| *refusal)
    }

    /// What the library's answer means: 0 is done.
    pub(crate) fn answered(number: u8) -> Result<(), Refusal> {
        match number {
            0 => Ok(()),
            _ => Err(Refusal::of_number(number)),
        }
    }

    /// The reason in general.
    pub(crate) fn reason(self) -> &'static str {
        match self {
            Refusal::Discount => "the discount is not at least 0 and below 1",
            Refusal::Range => "a size is out of its range, or the base is not the watch's",
            Refusal::Length => "a list is not of its length",
            Refusal::NotFinite => "a number is infinite or not a number",
            Refusal::ValuesSeen => "values_seen is out of its range or not late enough",
            Refusal::Count => "a count of the watch is out of its range",
            Refusal::Horizon => "the horizon is not 0 to 1",
            Refusal::Blocks => "the attribution cannot be cut into blocks",
            Refusal::Row => "a row is not three fields, a quote is broken, or the header is wrong",
            Refusal::Field => "a field is no number as its column wants one",
            Refusal::Drawer => "the drawer is not there, is there already, or is not 1 to 65,535",
            Refusal::Full => "all records of the pool are used",
            Refusal::Pool => "the pool is not of its length or breaks one of its rules",
            Refusal::Other(_) => "a reason that has no name here",
        }
    }
}

impl fmt::Display for Refusal {
    fn fmt(&self, f: &mut fmt::Formatter) -> fmt::Result {
        write!(f, "refusal {}: {}", self.number(), self.reason())
    }
}

impl Error for Refusal {}

/// A call that was refused, and which list, length or number that was about. It has changed nothing.
///
/// ```
/// use withdrawal_watch::{Refusal, Watch};
///
/// let why = Watch::new(1.0, false, 1).unwrap_err();
/// assert_eq!(why.refusal(), Refusal::Discount);
/// assert_eq!(why.number(), 1);
/// assert_eq!(why.to_string(), "refusal 1: discount: 1, not at least 0 and below 1");
/// ```
#[derive(Clone, Debug, PartialEq, Eq)]
pub struct Refused {
    refusal: Refusal,
    about: String,
}

impl Refused {
    pub(crate) fn new(refusal: Refusal, about: String) -> Refused {
        Refused { refusal, about }
    }

    /// The reason.
    pub fn refusal(&self) -> Refusal {
        self.refusal
    }

    /// The reason's number.
    pub fn number(&self) -> u8 {
        self.refusal.number()
    }

    /// What it was about, in plain words.
    pub fn about(&self) -> &str {
        &self.about
    }
}

impl fmt::Display for Refused {
    fn fmt(&self, f: &mut fmt::Formatter) -> fmt::Result {
        write!(f, "refusal {}: {}", self.number(), self.about)
    }
}

impl Error for Refused {}

#[cfg(test)]
mod tests {
    use super::{Refusal, NUMBERED};

    #[test]
    fn each_number_has_one_refusal_and_back() {
        assert_eq!(Refusal::answered(0), Ok(()));
        for number in 1..=u8::MAX {
            let refusal = Refusal::of_number(number);
            assert_eq!(refusal.number(), number);
            assert_eq!(Refusal::answered(number), Err(refusal));
        }
        for (number, refusal) in NUMBERED {
            assert_eq!(refusal.number(), number);
        }
    }
}
