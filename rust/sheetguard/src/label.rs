//! Labels, and how two of them stand.

use crate::{numbers, Refusal};
use std::cmp::Ordering;

/// How the first of two labels stands to the second.
#[derive(Clone, Copy, Debug, PartialEq, Eq)]
pub enum Standing {
    /// They are the same label, and dominate each other.
    Equal,
    /// The first dominates the second, and they differ.
    Above,
    /// The second dominates the first, and they differ.
    Below,
    /// Neither dominates the other.
    Apart,
}

/// A label: a class 0 to 3 and a set of three brands, worth 1, 2 and 4.
///
/// `a >= b` is "a dominates b". The order is partial: for labels that are apart each of `<`, `<=`, `>` and `>=` is false.
///
/// ```
/// use sheetguard::{set_up_labels, Label, LabelRequest, Refusal, WORDS};
///
/// # fn main() -> Result<(), Refusal> {
/// let (level, rival) = (Label::of_parts(2, 1)?, Label::of_parts(2, 2)?);
/// assert!(level >= Label::new(9)? && level < Label::new(25)?);
/// assert!(!(level >= rival || level <= rival));
///
/// // in a set-up and in a request a label is a number
/// let mut table = [0; WORDS];
/// set_up_labels(&mut table, &[level.into(); 64], &[rival.into(); 64])?;
/// let start = LabelRequest::Start { session: 2, user: 4, level: level.into() };
/// assert_eq!(start, LabelRequest::Start { session: 2, user: 4, level: 17 });
/// # Ok(())
/// # }
/// ```
#[derive(Clone, Copy, Debug, PartialEq, Eq, Hash)]
pub struct Label(u8);

impl Label {
    /// The label of a number 0 to 31.
    ///
    /// # Errors
    /// [`Refusal::BadArgument`].
    ///
    /// ```
    /// use sheetguard::{Label, Refusal};
    ///
    /// assert_eq!(Label::new(31).map(Label::number), Ok(31));
    /// assert_eq!(Label::new(32), Err(Refusal::BadArgument));
    /// ```
    pub fn new(number: u64) -> Result<Label, Refusal> {
        match u8::try_from(number) {
            Ok(number @ 0..=31) => Ok(Label(number)),
            _ => Err(Refusal::BadArgument),
        }
    }

    /// The label of a class 0 to 3 and a set of brands, 0 to 7.
    ///
    /// # Errors
    /// [`Refusal::BadArgument`].
    ///
    /// ```
    /// use sheetguard::{Label, Refusal};
    ///
    /// # fn main() -> Result<(), Refusal> {
    /// let label = Label::of_parts(3, 1 | 4)?;
    /// assert_eq!((label.number(), label.class(), label.brands()), (29, 3, 5));
    /// assert_eq!(Label::of_parts(4, 0), Err(Refusal::BadArgument));
    /// assert_eq!(Label::of_parts(0, 8), Err(Refusal::BadArgument));
    /// # Ok(())
    /// # }
    /// ```
    pub fn of_parts(class: u64, brands: u64) -> Result<Label, Refusal> {
        match (class, brands) {
            (0..=3, 0..=7) => Label::new(class * 8 + brands),
            _ => Err(Refusal::BadArgument),
        }
    }

    /// The number, 0 to 31.
    pub fn number(self) -> u64 {
        self.into()
    }

    /// The class, 0 to 3.
    pub fn class(self) -> u64 {
        self.number() / 8
    }

    /// The set of brands as a word: brand 1 is worth 1, brand 2 is worth 2 and brand 3 is worth 4.
    pub fn brands(self) -> u64 {
        self.number() % 8
    }

    /// How the label stands to another.
    ///
    /// ```
    /// use sheetguard::{Label, Refusal, Standing};
    ///
    /// # fn main() -> Result<(), Refusal> {
    /// let level = Label::new(17)?;
    /// assert_eq!(level.stands(Label::new(17)?), Standing::Equal);
    /// assert_eq!(level.stands(Label::new(9)?), Standing::Above);
    /// assert_eq!(level.stands(Label::new(25)?), Standing::Below);
    /// assert_eq!(level.stands(Label::new(18)?), Standing::Apart);
    /// # Ok(())
    /// # }
    /// ```
    #[must_use]
    pub fn stands(self, other: Label) -> Standing {
        match numbers::compare_labels(self.number(), other.number()) {
            0 => Standing::Equal,
            1 => Standing::Above,
            2 => Standing::Below,
            3 => Standing::Apart,
            number => panic!("by its contract the call never answers {number} for two labels"),
        }
    }
}

/// By [`Label::stands`]; labels that are apart have no order.
impl PartialOrd for Label {
    fn partial_cmp(&self, other: &Label) -> Option<Ordering> {
        match self.stands(*other) {
            Standing::Equal => Some(Ordering::Equal),
            Standing::Above => Some(Ordering::Greater),
            Standing::Below => Some(Ordering::Less),
            Standing::Apart => None,
        }
    }
}

/// The number, as the lists of a set-up have it.
impl From<Label> for u8 {
    fn from(label: Label) -> u8 {
        label.0
    }
}

/// The number, as a request has it.
impl From<Label> for u64 {
    fn from(label: Label) -> u64 {
        label.0.into()
    }
}
