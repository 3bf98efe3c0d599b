//! The refusals, by their numbers.

use std::fmt::{self, Display, Formatter};

/// Why a call is refused; nothing that is lent is changed then. Of several reasons the first in this order is given.
#[derive(Clone, Copy, Debug, PartialEq, Eq)]
#[non_exhaustive]
pub enum Refusal {
    /// 12: the table has not 1,352 words.
    WrongLength,
    /// 13: the table is not sound.
    Unsound,
    /// 14: a label request meets a sound table that is the image of no machine state.
    NoImage,
    /// 15: there is no request of this code.
    BadCode,
    /// 16: an argument is out of range.
    BadArgument,
    /// 17: a grant or revoke names a pair that is no permission.
    NoPermission,
    /// 18: a set-up list has not its length.
    BadListLength,
    /// 19: a set-up value is out of range.
    BadValue,
    /// 20: direct juniors lead from a role through another back to it.
    Cycle,
    /// 21: the bound of a separation set is below 2 or above the number of its roles, and not both are 0.
    BadPair,
    /// 22: the rate of a statement is over 1,000,000.
    BadRate,
    /// 23: an opening would be answered yes, and the count that it advances is 4,294,967,295 already.
    FullCount,
    /// A refusal that this crate does not know.
    Other(OtherRefusal),
}

/// A number that is neither an answer nor a refusal with a name; [`Refusal::of`] alone makes one.
#[derive(Clone, Copy, Debug, PartialEq, Eq)]
pub struct OtherRefusal(u64);

impl Refusal {
    /// The refusal of a number; none where the number is an answer, 0 or 1.
    ///
    /// ```
    /// use sheetguard::Refusal;
    ///
    /// assert_eq!(Refusal::of(1), None);
    /// assert_eq!(Refusal::of(13), Some(Refusal::Unsound));
    /// assert!((2..100).all(|number| Refusal::of(number).map(Refusal::number) == Some(number)));
    /// ```
    pub fn of(number: u64) -> Option<Refusal> {
        Some(match number {
            0 | 1 => return None,
            12 => Refusal::WrongLength,
            13 => Refusal::Unsound,
            14 => Refusal::NoImage,
            15 => Refusal::BadCode,
            16 => Refusal::BadArgument,
            17 => Refusal::NoPermission,
            18 => Refusal::BadListLength,
            19 => Refusal::BadValue,
            20 => Refusal::Cycle,
            21 => Refusal::BadPair,
            22 => Refusal::BadRate,
            23 => Refusal::FullCount,
            _ => Refusal::Other(OtherRefusal(number)),
        })
    }

    /// The number of the refusal, never 0 or 1.
    pub fn number(self) -> u64 {
        self.row().0
    }

    /// The number and the reason.
    fn row(self) -> (u64, &'static str) {
        match self {
            Refusal::WrongLength => (12, "the table has not 1,352 words"),
            Refusal::Unsound => (13, "the table is not sound"),
            Refusal::NoImage => (14, "the table is the image of no machine state"),
            Refusal::BadCode => (15, "there is no request of this code"),
            Refusal::BadArgument => (16, "an argument is out of range"),
            Refusal::NoPermission => (17, "the pair is no permission"),
            Refusal::BadListLength => (18, "a set-up list has not its length"),
            Refusal::BadValue => (19, "a set-up value is out of range"),
            Refusal::Cycle => (20, "direct juniors lead from a role through another back to it"),
            Refusal::BadPair => (21, "the bound of the set is below 2 or above the number of its roles"),
            Refusal::BadRate => (22, "the rate is over 1,000,000 cents per thousand openings"),
            Refusal::FullCount => (23, "the count of the user is full"),
            Refusal::Other(OtherRefusal(number)) => (number, "the reason is not known"),
        }
    }
}

/// The number and the reason.
///
/// ```
/// use sheetguard::Refusal;
///
/// assert_eq!(Refusal::Unsound.to_string(), "refusal 13: the table is not sound");
/// assert_eq!(Refusal::of(99).unwrap().to_string(), "refusal 99: the reason is not known");
/// ```
impl Display for Refusal {
    fn fmt(&self, out: &mut Formatter) -> fmt::Result {
        let (number, reason) = self.row();
        write!(out, "refusal {number}: {reason}")
    }
}

impl std::error::Error for Refusal {}
