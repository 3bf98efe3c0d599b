//! The requests. An argument may be any number; one that is out of range is refused by the guard.

/// A request on a role table.
#[derive(Clone, Copy, Debug, PartialEq, Eq)]
#[allow(missing_docs)] // the fields are what their names say
pub enum RoleRequest {
    /// Yes when (mode, object) is an effective permission of the session.
    Open { session: u64, object: u64, mode: u64 },
    /// Always yes.
    Close { session: u64, object: u64, mode: u64 },
    /// Yes when the session is idle, every role of the set is authorised for the user and no dynamic set breaks; the session
    /// then belongs to the user, with exactly these roles active. Any word is a set of roles, 0 the empty one.
    Start { session: u64, user: u64, roles: u64 },
    /// Yes when the session is not idle; it then is, without roles and openings.
    End { session: u64 },
    /// Yes when the role is authorised for the user of the session and no dynamic set breaks.
    Activate { session: u64, role: u64 },
    /// Yes when the table without the active role is sound.
    Drop { session: u64, role: u64 },
    /// Yes when no static set breaks.
    Assign { user: u64, role: u64 },
    /// Yes when the table without the assignment is sound.
    Deassign { user: u64, role: u64 },
    /// Always yes for a permission.
    Grant { role: u64, mode: u64, object: u64 },
    /// Yes when the table without the grant is sound.
    Revoke { role: u64, mode: u64, object: u64 },
    /// Yes when every user, with a session or without, is authorised for fewer of the roles than the bound; these then are the
    /// static set, 0 to 15. No roles with bound 0 empty it. [Separation of duties](crate#separation-of-duties) has more.
    StaticSet { set: u64, roles: u64, bound: u64 },
    /// Yes when every session has fewer of the roles active than the bound; these then are the dynamic set, 0 to 15. No roles
    /// with bound 0 empty it.
    DynamicSet { set: u64, roles: u64, bound: u64 },
    /// Yes when the roles differ, the second is not senior to the first and no static set breaks; the second is then a direct
    /// junior of the first. Yes too where it is a junior already, direct or not. [Seniority](crate#seniority) has more.
    Link { senior: u64, junior: u64 },
    /// Yes when the second is a direct junior of the first and the table without this link is sound; it then is none, and may
    /// be a junior through another role still.
    Unlink { senior: u64, junior: u64 },
}

impl RoleRequest {
    /// The code and the three arguments.
    pub(crate) fn numbers(self) -> [u64; 4] {
        match self {
            RoleRequest::Open { session, object, mode } => [1, session, object, mode],
            RoleRequest::Close { session, object, mode } => [2, session, object, mode],
            RoleRequest::Start { session, user, roles } => [3, session, user, roles],
            RoleRequest::End { session } => [4, session, 0, 0],
            RoleRequest::Activate { session, role } => [5, session, role, 0],
            RoleRequest::Drop { session, role } => [6, session, role, 0],
            RoleRequest::Assign { user, role } => [7, user, role, 0],
            RoleRequest::Deassign { user, role } => [8, user, role, 0],
            RoleRequest::Grant { role, mode, object } => [9, role, mode, object],
            RoleRequest::Revoke { role, mode, object } => [10, role, mode, object],
            RoleRequest::StaticSet { set, roles, bound } => [11, set, roles, bound],
            RoleRequest::DynamicSet { set, roles, bound } => [12, set, roles, bound],
            RoleRequest::Link { senior, junior } => [13, senior, junior, 0],
            RoleRequest::Unlink { senior, junior } => [14, senior, junior, 0],
        }
    }
}

/// A request on a label table. Mode 0 reads, mode 1 writes without reading.
///
/// A label is `class * 8 + brand set`. Label a dominates b when a's class is at least b's and a's set holds all of b's: 25
/// (class 3, brand 1) dominates 9 (class 1, brand 1); 17 and 18 (class 2, brands 1 and 2) are apart. There is a picture
/// under [Labels](crate#labels).
#[derive(Clone, Copy, Debug, PartialEq, Eq)]
#[allow(missing_docs)] // the fields are what their names say
pub enum LabelRequest {
    /// Yes when the session is not idle and its level dominates the object's label (mode 0) or the label its level
    /// (mode 1).
    Open { session: u64, object: u64, mode: u64 },
    /// Always yes.
    Close { session: u64, object: u64, mode: u64 },
    /// Yes when the session is idle and the user's clearance dominates the level.
    Start { session: u64, user: u64, level: u64 },
    /// Yes when the session is not idle.
    End { session: u64 },
    /// Yes when the clearance dominates the level of every session of the user.
    Reclear { user: u64, clearance: u64 },
}

impl LabelRequest {
    /// The code and the three arguments.
    pub(crate) fn numbers(self) -> [u64; 4] {
        match self {
            LabelRequest::Open { session, object, mode } => [1, session, object, mode],
            LabelRequest::Close { session, object, mode } => [2, session, object, mode],
            LabelRequest::Start { session, user, level } => [3, session, user, level],
            LabelRequest::End { session } => [4, session, 0, 0],
            LabelRequest::Reclear { user, clearance } => [5, user, clearance, 0],
        }
    }
}
