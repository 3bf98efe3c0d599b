//! The proved sheet guard in a Rust program: which session may open which object, to read or to write.
//!
//! The guard keeps nothing of its own. The caller lends a table of [`WORDS`] words at each call: a role table, written
//! by [`set_up_roles`] and asked by [`role_request`], or a label table, written by [`set_up_labels`] and asked by
//! [`label_request`]. How two labels stand ([`Label::stands`]) and what openings cost ([`Tally::statement`]) is asked without
//! a table. Users, roles and objects are 0 to 63, sessions 0 to 31, modes 0 to 7 and labels 0 to 31; a set of them is a word
//! with bit i set when i is a member. Any slice and any number may be passed: what does not fit is refused, and a no or a
//! [`Refusal`] leaves all that is lent unchanged.
//!
//! A programmer who has to store, restore or migrate a table finds in `docs/TABLE.md` of the project the layout of the
//! words, what sound means, which fault gets which refusal, and byte order.
//!
//! ```
//! use sheetguard::{label_request, set_up_labels, Answer, LabelRequest, Refusal, WORDS};
//!
//! # fn main() -> Result<(), Refusal> {
//! let (mut clearances, mut labels) = ([0; 64], [0; 64]);
//! clearances[4] = 17;
//! labels[7] = 9;
//! labels[8] = 25;
//! let mut table = [0; WORDS];
//! set_up_labels(&mut table, &clearances, &labels)?;
//!
//! let start = LabelRequest::Start { session: 2, user: 4, level: 17 };
//! assert_eq!(label_request(&mut table, start)?.answer, Answer::Yes);
//! let read = |object| LabelRequest::Open { session: 2, object, mode: 0 };
//! assert_eq!(label_request(&mut table, read(7))?.answer, Answer::Yes);
//! assert_eq!(label_request(&mut table, read(8))?.answer, Answer::No);
//! assert_eq!(label_request(&mut table, read(64)), Err(Refusal::BadArgument));
//! # Ok(())
//! # }
//! ```
//!
//! # Separation of duties
//!
//! A role table has 16 static and 16 dynamic sets, each a set of roles and a *bound*: a number of these roles that nobody may
//! have together. A static set looks at the authorised roles of every user, with a session or without; a dynamic one at the
//! active roles of every session, without their juniors. A set-up leaves them empty. Who edits a formula may not release it:
//!
//! ```
//! use sheetguard::{role_request, set_up_roles, Answer, Refusal, RoleRequest, WORDS};
//!
//! # fn main() -> Result<(), Refusal> {
//! let (edits, releases) = (6, 7);
//! let mut table = [0; WORDS];
//! set_up_roles(&mut table, &[0; 64], &[0; 8])?;
//! let apart = |bound| RoleRequest::StaticSet { set: 0, roles: 1 << edits | 1 << releases, bound };
//! assert_eq!(role_request(&mut table, apart(2))?, Answer::Yes);
//! assert_eq!(role_request(&mut table, RoleRequest::Assign { user: 3, role: edits })?, Answer::Yes);
//! assert_eq!(role_request(&mut table, RoleRequest::Assign { user: 3, role: releases })?, Answer::No);
//! assert_eq!(role_request(&mut table, apart(3)), Err(Refusal::BadPair)); // there are only two roles
//! # Ok(())
//! # }
//! ```
//!
//! # Seniority
//!
//! A role is senior to its direct juniors, to theirs, and so on. The set-up gives the direct juniors; while the table is in use
//! [`RoleRequest::Link`] puts a role above another, and [`RoleRequest::Unlink`] takes such a link away. A link is answered no
//! where it would put two roles above each other or break a static set, and an unlink where an active role would no longer be
//! authorised or an opening no longer be effective. A new shift lead comes above two roles:
//!
//! ```
//! use sheetguard::{authorised_roles, role_request, set_up_roles, Answer, Refusal, RoleRequest, WORDS};
//!
//! # fn main() -> Result<(), Refusal> {
//! let (lead, weighs, tastes) = (7, 1, 3);
//! let mut table = [0; WORDS];
//! set_up_roles(&mut table, &[0; 64], &[0; 8])?;
//! assert_eq!(role_request(&mut table, RoleRequest::Assign { user: 2, role: lead })?, Answer::Yes);
//! for junior in [weighs, tastes] {
//!     assert_eq!(role_request(&mut table, RoleRequest::Link { senior: lead, junior })?, Answer::Yes);
//! }
//! assert_eq!(authorised_roles(&table, 2)?, 1 << lead | 1 << weighs | 1 << tastes);
//! assert_eq!(role_request(&mut table, RoleRequest::Link { senior: weighs, junior: lead })?, Answer::No);
//!
//! // while the lead weighs, the link is not taken away
//! let start = RoleRequest::Start { session: 0, user: 2, roles: 1 << weighs };
//! assert_eq!(role_request(&mut table, start)?, Answer::Yes);
//! let unlink = RoleRequest::Unlink { senior: lead, junior: weighs };
//! assert_eq!(role_request(&mut table, unlink)?, Answer::No);
//! assert_eq!(role_request(&mut table, RoleRequest::End { session: 0 })?, Answer::Yes);
//! assert_eq!(role_request(&mut table, unlink)?, Answer::Yes);
//! # Ok(())
//! # }
//! ```
//!
//! # What each session may open
//!
//! A table keeps the effective permissions of each session, so that who reads a backup need not gather them: every request
//! answered yes leaves them true, and a table where they are not is [`Refusal::Unsound`]. [`sessions`] tests a table and reads
//! them, with the user, the active roles and the openings of each session. The example `backup` prints this for a file. A grant
//! is felt at once by every session that has the role or one above it:
//!
//! ```
//! use sheetguard::{role_request, sessions, set_up_roles, Answer, Refusal, RoleRequest, WORDS};
//!
//! # fn main() -> Result<(), Refusal> {
//! let (lead, weighs) = (7, 1);
//! let mut juniors = [0; 64];
//! juniors[lead as usize] = 1 << weighs;
//! let mut table = [0; WORDS];
//! set_up_roles(&mut table, &juniors, &[1 << 9; 8])?;
//! for request in [
//!     RoleRequest::Assign { user: 2, role: lead },
//!     RoleRequest::Start { session: 0, user: 2, roles: 1 << lead },
//!     RoleRequest::Grant { role: weighs, mode: 0, object: 9 },
//! ] {
//!     assert_eq!(role_request(&mut table, request)?, Answer::Yes);
//! }
//! let may_open = sessions(&table)?[0].map(|session| session.may_open[0]);
//! assert_eq!(may_open, Some(1 << 9));
//! # Ok(())
//! # }
//! ```
//!
//! # Licence statement
//!
//! Who bills openings keeps a [`Tally`] beside the table and lends both to [`open_tallied`]: a yes advances the count of the
//! session's user, also for an opening that is held already. A no, a refusal and every other call leave the tally, so that
//! openings by [`role_request`] and [`label_request`] are not billed. [`Tally::statement`] charges each user in whole cents,
//! count times the rate in cents per thousand openings, divided by 1,000, halves up, and sums these charges. The example
//! `statement` prints a bill.
//!
//! ```
//! use sheetguard::{open_tallied, role_request, set_up_roles, Answer, Refusal, RoleRequest, Tally, WORDS};
//!
//! # fn main() -> Result<(), Refusal> {
//! let mut table = [0; WORDS];
//! set_up_roles(&mut table, &[0; 64], &[1 << 9; 8])?;
//! for request in [
//!     RoleRequest::Grant { role: 1, mode: 0, object: 9 },
//!     RoleRequest::Assign { user: 2, role: 1 },
//!     RoleRequest::Start { session: 0, user: 2, roles: 1 << 1 },
//! ] {
//!     assert_eq!(role_request(&mut table, request)?, Answer::Yes);
//! }
//! let mut tally = Tally::new();
//! for _ in 0..1500 {
//!     assert_eq!(open_tallied(&mut table, &mut tally, 0, 9, 0)?, Answer::Yes);
//! }
//! assert_eq!(open_tallied(&mut table, &mut tally, 0, 8, 0)?, Answer::No); // not counted
//! assert_eq!(role_request(&mut table, RoleRequest::Open { session: 0, object: 9, mode: 0 })?, Answer::Yes); // nor this
//! assert_eq!(tally.count(2)?, 1500);
//!
//! // 4.5 cents
//! let statement = tally.statement(3)?;
//! assert_eq!((statement.charges[2], statement.total), (5, 5));
//! # Ok(())
//! # }
//! ```
//!
//! # Labels
//!
//! A label is `class * 8 + brand set`: a class 0 to 3, and a set of three brands, worth 1, 2 and 4. Label a *dominates* b
//! when a's class is at least b's and a's set holds all of b's brands. Two labels stand in one of four ways: they are
//! *equal*; the first is *above* the second, dominates it and differs from it; it is *below* the second, the reverse; or
//! they are *apart*, and neither dominates the other. 25 (class 3, brand 1) is above 9 (class 1, brand 1), and 9 below 25;
//! 17 (class 2, brand 1) and 18 (class 2, brand 2) are apart. Seven of the 32 labels, each of which dominates itself and
//! those that lines lead down to:
//!
//! ```text
//!       31          31: class 3, all three brands
//!        |
//!       27          27: class 3, brands 1 and 2
//!      /  \
//!    17    18       17: class 2, brand 1        18: class 2, brand 2
//!     |    |
//!     9    10        9: class 1, brand 1        10: class 1, brand 2
//!      \  /
//!        0           0: class 0, no brand
//! ```
//!
//! A session reads what its level dominates, and writes what dominates its level. [`Label::stands`] answers with one of the
//! four, a [`Standing`], and `a >= b` on [`Label`] is "a dominates b":
//!
//! ```
//! use sheetguard::{Label, Refusal, Standing};
//!
//! # fn main() -> Result<(), Refusal> {
//! let (level, label) = (Label::new(17)?, Label::new(25)?);
//! assert_eq!(level.stands(label), Standing::Below);
//! assert!(label >= level); // at level 17 what has label 25 may be written
//! assert!(!(level >= label)); // and not read
//! # Ok(())
//! # }
//! ```

#![warn(missing_docs)]
#![doc(test(attr(deny(unused_must_use))))]

mod label;
pub mod numbers;
mod refusal;
mod request;
mod session;
mod tally;

pub use label::{Label, Standing};
pub use refusal::{OtherRefusal, Refusal};
pub use request::{LabelRequest, RoleRequest};
pub use session::{sessions, Session};
pub use tally::{open_tallied, Statement, Tally};

/// The number of words of a table.
pub const WORDS: usize = 1352;

/// The answer to a request that is not refused.
#[derive(Clone, Copy, Debug, PartialEq, Eq)]
#[must_use = "the answer may be no, and then nothing was changed"]
pub enum Answer {
    /// The request is carried out.
    Yes,
    /// The table is as it was.
    No,
}

/// An answer to a label request, with the number of role requests made on its behalf.
#[derive(Clone, Copy, Debug, PartialEq, Eq)]
#[must_use = "the answer may be no, and then nothing was changed"]
pub struct Reply {
    /// Yes or no.
    pub answer: Answer,
    /// At most 3.
    pub spent: u64,
}

/// The answer of a number, or the refusal.
fn answer_of(number: u64) -> Result<Answer, Refusal> {
    match Refusal::of(number) {
        Some(refusal) => Err(refusal),
        None if number == 1 => Ok(Answer::Yes),
        None => Ok(Answer::No),
    }
}

/// What a call comes to that is answered yes or refused, and never answered no.
fn accepted(number: u64) -> Result<(), Refusal> {
    let answer = answer_of(number)?;
    assert_eq!(answer, Answer::Yes, "by its contract the call is never answered no");
    Ok(())
}

/// Writes a fresh role table: the direct juniors, their closure, the permissions, and nothing else.
///
/// Word r of the 64 in `juniors` has the direct juniors of role r (its own bit is ignored); word x of the 8 in `permissions`
/// has the objects o for which (x, o) is a permission. Old contents of the table do not matter.
///
/// # Errors
/// [`Refusal::WrongLength`], [`Refusal::BadListLength`], [`Refusal::Cycle`].
///
/// ```
/// use sheetguard::{set_up_roles, Refusal, WORDS};
///
/// let mut juniors = [0; 64];
/// juniors[5] = 1 << 3;
/// let mut table = [0; WORDS];
/// assert_eq!(set_up_roles(&mut table, &juniors, &[0; 8]), Ok(()));
/// juniors[3] = 1 << 5;
/// assert_eq!(set_up_roles(&mut table, &juniors, &[0; 8]), Err(Refusal::Cycle));
/// assert_eq!(set_up_roles(&mut [], &juniors, &[0; 8]), Err(Refusal::WrongLength));
/// ```
pub fn set_up_roles(table: &mut [u64], juniors: &[u64], permissions: &[u64]) -> Result<(), Refusal> {
    accepted(numbers::role_setup(table, juniors, permissions))
}

/// Writes a fresh label table, all sessions idle, from 64 clearances and 64 object labels.
///
/// A label is `class * 8 + brand set`, as 25 for class 3 and brand 1; [Labels](crate#labels) says which label dominates
/// which. Old contents of the table do not matter.
///
/// # Errors
/// [`Refusal::WrongLength`], [`Refusal::BadListLength`], [`Refusal::BadValue`].
///
/// ```
/// use sheetguard::{set_up_labels, Refusal, WORDS};
///
/// let mut table = [0; WORDS];
/// assert_eq!(set_up_labels(&mut table, &[31; 64], &[0; 64]), Ok(()));
/// assert_eq!(set_up_labels(&mut table, &[32; 64], &[0; 64]), Err(Refusal::BadValue));
/// assert_eq!(set_up_labels(&mut table, &[31; 63], &[0; 64]), Err(Refusal::BadListLength));
/// ```
pub fn set_up_labels(table: &mut [u64], clearances: &[u8], labels: &[u8]) -> Result<(), Refusal> {
    accepted(numbers::label_setup(table, clearances, labels))
}

/// A role request.
///
/// # Errors
/// [`Refusal::WrongLength`], [`Refusal::Unsound`], [`Refusal::BadArgument`], [`Refusal::NoPermission`],
/// [`Refusal::BadPair`].
///
/// ```
/// use sheetguard::{role_request, set_up_roles, Answer, Refusal, RoleRequest, WORDS};
///
/// # fn main() -> Result<(), Refusal> {
/// let mut permissions = [0; 8];
/// permissions[0] = 1 << 9;
/// let mut table = [0; WORDS];
/// set_up_roles(&mut table, &[0; 64], &permissions)?;
/// let requests = [
///     RoleRequest::Grant { role: 1, mode: 0, object: 9 },
///     RoleRequest::Assign { user: 2, role: 1 },
///     RoleRequest::Start { session: 0, user: 2, roles: 1 << 1 },
///     RoleRequest::Open { session: 0, object: 9, mode: 0 },
/// ];
/// for request in requests {
///     assert_eq!(role_request(&mut table, request)?, Answer::Yes);
/// }
/// assert_eq!(role_request(&mut table, RoleRequest::Drop { session: 0, role: 1 })?, Answer::No);
/// let start = RoleRequest::Start { session: 1, user: 2, roles: 1 << 1 | 1 << 3 };
/// assert_eq!(role_request(&mut table, start)?, Answer::No);
/// let other = RoleRequest::Grant { role: 1, mode: 1, object: 9 };
/// assert_eq!(role_request(&mut table, other), Err(Refusal::NoPermission));
/// # Ok(())
/// # }
/// ```
pub fn role_request(table: &mut [u64], request: RoleRequest) -> Result<Answer, Refusal> {
    let [code, a, b, c] = request.numbers();
    answer_of(numbers::role_request(table, code, a, b, c))
}

/// A label request.
///
/// # Errors
/// [`Refusal::WrongLength`], [`Refusal::Unsound`], [`Refusal::NoImage`], [`Refusal::BadArgument`].
///
/// ```
/// use sheetguard::{label_request, set_up_labels, Answer, LabelRequest, Refusal, Reply, WORDS};
///
/// # fn main() -> Result<(), Refusal> {
/// let mut table = [0; WORDS];
/// set_up_labels(&mut table, &[9; 64], &[0; 64])?;
/// let reclear = LabelRequest::Reclear { user: 4, clearance: 10 };
/// assert_eq!(label_request(&mut table, reclear)?, Reply { answer: Answer::Yes, spent: 2 });
/// assert_eq!(label_request(&mut table, reclear)?, Reply { answer: Answer::Yes, spent: 0 });
/// # Ok(())
/// # }
/// ```
pub fn label_request(table: &mut [u64], request: LabelRequest) -> Result<Reply, Refusal> {
    let [code, a, b, c] = request.numbers();
    let mut spent = 0;
    let answer = answer_of(numbers::label_request(table, code, a, b, c, &mut spent))?;
    Ok(Reply { answer, spent })
}

/// Whether two tables are alike: the same openings, the same effective permissions of each session, and the same authorised
/// roles of each of the 64 users, with a session or without. Nothing else counts: not by which assignments, links or grants,
/// not whose session it is, not which roles it has active, no separation set.
///
/// Alike tables answer every list of openings and closings alike and are alike after it. Other requests they may answer
/// differently: a session may belong to different users in the two, who may activate different roles.
///
/// # Errors
/// [`Refusal::WrongLength`] and [`Refusal::Unsound`], for the first table and then for the second.
///
/// ```
/// use sheetguard::{alike, role_request, set_up_roles, Answer, Refusal, RoleRequest, WORDS};
///
/// # fn main() -> Result<(), Refusal> {
/// // role 5 above role 3, and user 2 is assigned 5
/// let mut juniors = [0; 64];
/// juniors[5] = 1 << 3;
/// let mut table = [0; WORDS];
/// set_up_roles(&mut table, &juniors, &[0; 8])?;
/// let fresh = table;
/// assert_eq!(role_request(&mut table, RoleRequest::Assign { user: 2, role: 5 })?, Answer::Yes);
/// assert!(!alike(&fresh, &table)?);
///
/// // assigned 3 as well, which user 2 has through 5 already
/// let assigned = table;
/// assert_eq!(role_request(&mut table, RoleRequest::Assign { user: 2, role: 3 })?, Answer::Yes);
/// assert!(assigned != table && alike(&assigned, &table)?);
/// assert_eq!(alike(&table, &[]), Err(Refusal::WrongLength));
/// # Ok(())
/// # }
/// ```
pub fn alike(first: &[u64], second: &[u64]) -> Result<bool, Refusal> {
    answer_of(numbers::alike(first, second)).map(|answer| answer == Answer::Yes)
}

/// The effective permissions of a session, a word of objects for each mode; those of an idle session are none. [`sessions`]
/// has those of all sessions.
///
/// # Errors
/// [`Refusal::WrongLength`], [`Refusal::Unsound`], [`Refusal::BadArgument`].
///
/// ```
/// use sheetguard::{effective_permissions, label_request, set_up_labels, Answer, LabelRequest, Refusal, WORDS};
///
/// # fn main() -> Result<(), Refusal> {
/// let mut labels = [31; 64];
/// labels[6] = 0;
/// let mut table = [0; WORDS];
/// set_up_labels(&mut table, &[9; 64], &labels)?;
/// let start = LabelRequest::Start { session: 1, user: 0, level: 9 };
/// assert_eq!(label_request(&mut table, start)?.answer, Answer::Yes);
/// let masks = effective_permissions(&table, 1)?;
/// assert_eq!((masks[0], masks[1]), (1 << 6, !(1 << 6)));
/// # Ok(())
/// # }
/// ```
pub fn effective_permissions(table: &[u64], session: u64) -> Result<[u64; 8], Refusal> {
    let mut masks = [0; 8];
    accepted(numbers::effective_permissions(table, session, &mut masks)).map(|()| masks)
}

/// The authorised roles of a user: those assigned and all their juniors, as a word.
///
/// # Errors
/// [`Refusal::WrongLength`], [`Refusal::Unsound`], [`Refusal::BadArgument`].
///
/// ```
/// use sheetguard::{authorised_roles, role_request, set_up_roles, Answer, Refusal, RoleRequest, WORDS};
///
/// # fn main() -> Result<(), Refusal> {
/// let mut juniors = [0; 64];
/// juniors[5] = 1 << 3;
/// let mut table = [0; WORDS];
/// set_up_roles(&mut table, &juniors, &[0; 8])?;
/// assert_eq!(role_request(&mut table, RoleRequest::Assign { user: 0, role: 5 })?, Answer::Yes);
/// assert_eq!(authorised_roles(&table, 0)?, 1 << 5 | 1 << 3);
/// assert_eq!(authorised_roles(&table, 64), Err(Refusal::BadArgument));
/// # Ok(())
/// # }
/// ```
pub fn authorised_roles(table: &[u64], user: u64) -> Result<u64, Refusal> {
    let mut roles = [0];
    accepted(numbers::authorised_roles(table, user, &mut roles)).map(|()| roles[0])
}
