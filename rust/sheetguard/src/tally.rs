//! Openings that are counted, and the statement of what they cost.

use crate::{accepted, answer_of, numbers, Answer, Refusal};

/// How many openings of each of the 64 users that lent the tally were answered yes.
///
/// A tally begins with zeros and is lent to each opening as the one before left it. It is stored as its 64 counts, of 32 bits
/// each, and restored from them.
///
/// ```
/// use sheetguard::Tally;
///
/// let mut counts = [0; 64];
/// counts[2] = 1500;
/// let tally = Tally::from(counts); // restored
/// assert_eq!(tally.count(2), Ok(1500));
/// assert_eq!(<[u32; 64]>::from(tally), counts); // to be stored
/// ```
#[derive(Clone, Debug, PartialEq, Eq)]
pub struct Tally([u32; 64]);

/// What the openings of a tally cost, in cents.
#[derive(Clone, Debug, PartialEq, Eq)]
pub struct Statement {
    /// The charge of each user.
    pub charges: [u64; 64],
    /// The sum of the charges.
    pub total: u64,
}

impl Tally {
    /// The tally of no openings.
    pub fn new() -> Tally {
        Tally([0; 64])
    }

    /// The count of a user.
    ///
    /// # Errors
    /// [`Refusal::BadArgument`].
    ///
    /// ```
    /// use sheetguard::{Refusal, Tally};
    ///
    /// assert_eq!(Tally::new().count(63), Ok(0));
    /// assert_eq!(Tally::new().count(64), Err(Refusal::BadArgument));
    /// ```
    pub fn count(&self, user: u64) -> Result<u32, Refusal> {
        let count = usize::try_from(user).ok().and_then(|user| self.0.get(user));
        count.copied().ok_or(Refusal::BadArgument)
    }

    /// The counts of the 64 users.
    pub fn counts(&self) -> &[u32; 64] {
        &self.0
    }

    /// What the openings cost at a rate in cents per thousand openings: for each user count times rate, divided by 1,000,
    /// rounded to the nearest cent, halves up; and the sum of these charges, as they are rounded.
    ///
    /// # Errors
    /// [`Refusal::BadRate`].
    ///
    /// ```
    /// use sheetguard::{Refusal, Tally};
    ///
    /// # fn main() -> Result<(), Refusal> {
    /// let mut counts = [0; 64];
    /// (counts[2], counts[9], counts[63]) = (1500, 499, 500);
    /// let tally = Tally::from(counts);
    /// let at_3 = tally.statement(3)?;
    /// assert_eq!((at_3.charges[2], at_3.charges[9], at_3.charges[63]), (5, 1, 2)); // 4.5, 1.497 and 1.5
    /// assert_eq!(at_3.total, 8);
    /// assert_eq!(tally.statement(1)?.total, 2 + 0 + 1); // 1.5, 0.499 and 0.5
    /// assert_eq!(tally.statement(1_000_000)?.charges[2], 1_500_000);
    /// assert_eq!(tally.statement(1_000_001), Err(Refusal::BadRate));
    /// # Ok(())
    /// # }
    /// ```
    pub fn statement(&self, rate: u64) -> Result<Statement, Refusal> {
        let mut statement = Statement { charges: [0; 64], total: 0 };
        let Statement { charges, total } = &mut statement;
        accepted(numbers::statement(&self.0, rate, charges, total)).map(|()| statement)
    }
}

/// The tally of no openings.
impl Default for Tally {
    fn default() -> Tally {
        Tally::new()
    }
}

/// The tally that was stored.
impl From<[u32; 64]> for Tally {
    fn from(counts: [u32; 64]) -> Tally {
        Tally(counts)
    }
}

/// The counts, to be stored.
impl From<Tally> for [u32; 64] {
    fn from(tally: Tally) -> [u32; 64] {
        tally.0
    }
}

/// A role opening that is counted: answered as [`RoleRequest::Open`](crate::RoleRequest::Open), and at a yes the count of the
/// session's user is one higher, also where the session held the object open already. All else leaves the table and the tally.
///
/// # Errors
/// [`Refusal::WrongLength`], [`Refusal::Unsound`], [`Refusal::BadArgument`], and [`Refusal::FullCount`] in place of a yes.
///
/// ```
/// use sheetguard::{open_tallied, role_request, set_up_roles, Answer, Refusal, RoleRequest, Tally, WORDS};
///
/// # fn main() -> Result<(), Refusal> {
/// let mut table = [0; WORDS];
/// set_up_roles(&mut table, &[0; 64], &[1 << 9; 8])?;
/// for request in [
///     RoleRequest::Grant { role: 1, mode: 0, object: 9 },
///     RoleRequest::Assign { user: 2, role: 1 },
///     RoleRequest::Start { session: 0, user: 2, roles: 1 << 1 },
/// ] {
///     assert_eq!(role_request(&mut table, request)?, Answer::Yes);
/// }
/// let mut tally = Tally::from([u32::MAX - 1; 64]);
/// assert_eq!(open_tallied(&mut table, &mut tally, 0, 9, 0)?, Answer::Yes);
/// assert_eq!(tally.count(2)?, u32::MAX);
/// assert_eq!(open_tallied(&mut table, &mut tally, 0, 9, 0), Err(Refusal::FullCount));
/// assert_eq!(open_tallied(&mut table, &mut tally, 0, 8, 0)?, Answer::No);
/// assert_eq!(open_tallied(&mut table, &mut tally, 32, 9, 0), Err(Refusal::BadArgument));
/// # Ok(())
/// # }
/// ```
pub fn open_tallied(
    table: &mut [u64],
    tally: &mut Tally,
    session: u64,
    object: u64,
    mode: u64,
) -> Result<Answer, Refusal> {
    answer_of(numbers::open_tallied(table, &mut tally.0, session, object, mode))
}
