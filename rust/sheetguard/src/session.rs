//! What a table says of its sessions.

use crate::{effective_permissions, Refusal};

/// Where the words of the sessions begin: users, active roles, openings and masks.
const USERS: usize = 648;
const ROLES: usize = 680;
const OPENINGS: usize = 712;
const MASKS: usize = 1096;

/// A session that is not idle, as a table has it.
#[derive(Clone, Copy, Debug, PartialEq, Eq)]
pub struct Session {
    /// Its user.
    pub user: u64,
    /// Its active roles, as a set.
    pub roles: u64,
    /// What it may open: its effective permissions, a set of objects for each mode.
    pub may_open: [u64; 8],
    /// What it holds open, a set of objects for each mode.
    pub open: [u64; 8],
}

/// The 32 sessions of a table, none where a session is idle. The table is tested first, so that what it says each session may
/// open is true; then all is read off its words, and nothing is worked out.
///
/// # Errors
/// [`Refusal::WrongLength`], [`Refusal::Unsound`].
///
/// ```
/// use sheetguard::{role_request, sessions, set_up_roles, Answer, Refusal, RoleRequest, Session, WORDS};
///
/// # fn main() -> Result<(), Refusal> {
/// let mut permissions = [0; 8];
/// permissions[0] = 1 << 9 | 1 << 10;
/// let mut table = [0; WORDS];
/// set_up_roles(&mut table, &[0; 64], &permissions)?;
/// let requests = [
///     RoleRequest::Grant { role: 1, mode: 0, object: 9 },
///     RoleRequest::Grant { role: 1, mode: 0, object: 10 },
///     RoleRequest::Assign { user: 2, role: 1 },
///     RoleRequest::Start { session: 31, user: 2, roles: 1 << 1 },
///     RoleRequest::Open { session: 31, object: 9, mode: 0 },
/// ];
/// for request in requests {
///     assert_eq!(role_request(&mut table, request)?, Answer::Yes);
/// }
///
/// let mode_0 = |objects| [objects, 0, 0, 0, 0, 0, 0, 0];
/// let session = Session { user: 2, roles: 1 << 1, may_open: mode_0(1 << 9 | 1 << 10), open: mode_0(1 << 9) };
/// assert_eq!(sessions(&table)?[31], Some(session));
/// assert!(sessions(&table)?[..31].iter().all(Option::is_none));
/// assert_eq!(sessions(&table[1..]), Err(Refusal::WrongLength));
/// assert_eq!(sessions(&[0; WORDS]), Err(Refusal::Unsound));
/// # Ok(())
/// # }
/// ```
pub fn sessions(table: &[u64]) -> Result<[Option<Session>; 32], Refusal> {
    effective_permissions(table, 0)?; // tests the table
    let masks = |first: usize, s: usize| std::array::from_fn(|x| table[first + 8 * s + x]);
    Ok(std::array::from_fn(|s| {
        let user = table[USERS + s].checked_sub(1)?;
        Some(Session { user, roles: table[ROLES + s], may_open: masks(MASKS, s), open: masks(OPENINGS, s) })
    }))
}
