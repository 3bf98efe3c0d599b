//! The RBAC96 state: sets, relations, and the definitions of source document 000 on them.

use crate::seniority::{between_others, closure, is_antisymmetric};
use crate::separation::Separation;
use crate::turns::turn;
use std::collections::{BTreeMap, BTreeSet};

pub type User = u64;
pub type Role = u64;
pub type Session = u64;
pub type Mode = u64;
pub type Object = u64;

pub const USERS: u64 = 64;
pub const ROLES: u64 = 64;
pub const SESSIONS: u64 = 32;
pub const MODES: u64 = 8;
pub const OBJECTS: u64 = 64;
/// How many separation sets there are of either kind.
pub const SETS: u64 = 16;

/// What a table says.
#[derive(Clone, Debug, Default, PartialEq, Eq)]
pub struct State {
    /// (r, q): role r is senior to role q or is q.
    pub seniority: BTreeSet<(Role, Role)>,
    /// (r, q): role q is a direct junior of role r, as given or linked.
    pub direct: BTreeSet<(Role, Role)>,
    /// The pairs of mode and object that are permissions.
    pub permissions: BTreeSet<(Mode, Object)>,
    /// (u, r): user u is assigned role r.
    pub assigned: BTreeSet<(User, Role)>,
    /// (x, o, r): role r is granted (x, o).
    pub granted: BTreeSet<(Mode, Object, Role)>,
    /// The user of each session that is not idle.
    pub users: BTreeMap<Session, User>,
    /// (s, r): role r is active in session s.
    pub active: BTreeSet<(Session, Role)>,
    /// (s, x, o): session s holds object o open in mode x.
    pub openings: BTreeSet<(Session, Mode, Object)>,
    /// (s, x, o): (x, o) is kept as effective for session s.
    pub masks: BTreeSet<(Session, Mode, Object)>,
    /// The static sets by their numbers; a number whose pair is empty is not there.
    pub static_sets: BTreeMap<u64, Separation>,
    /// The dynamic sets, likewise.
    pub dynamic_sets: BTreeMap<u64, Separation>,
}

impl State {
    pub fn is_idle(&self, s: Session) -> bool {
        !self.users.contains_key(&s)
    }

    /// Role r and all roles that it is senior to.
    pub fn juniors(&self, r: Role) -> impl Iterator<Item = Role> + '_ {
        seconds(&self.seniority, r)
    }

    /// The roles and all their juniors.
    pub fn with_juniors(&self, roles: impl Iterator<Item = Role>) -> BTreeSet<Role> {
        roles.flat_map(|r| self.juniors(r)).collect()
    }

    /// The roles assigned to a user, and all their juniors.
    pub fn authorised(&self, u: User) -> BTreeSet<Role> {
        let assigned = seconds(&self.assigned, u);
        turn!(authorised_upwards, self.with_juniors(assigned), self.with_seniors(assigned))
    }

    /// The authorised roles of the user of a session; an idle session has none.
    pub fn authorised_for(&self, s: Session) -> BTreeSet<Role> {
        match self.users.get(&s) {
            Some(user) => self.authorised(*user),
            None => BTreeSet::new(),
        }
    }

    /// The active roles of a session.
    pub fn active_in(&self, s: Session) -> BTreeSet<Role> {
        seconds(&self.active, s).collect()
    }

    /// The permissions granted to an active role of a session or to a junior of one.
    pub fn effective(&self, s: Session) -> BTreeSet<(Mode, Object)> {
        let active = seconds(&self.active, s);
        self.granted_to(&turn!(permissions_from_seniors, self.with_juniors(active), self.with_seniors(active)))
    }

    /// The permissions granted to one of the roles.
    pub fn granted_to(&self, roles: &BTreeSet<Role>) -> BTreeSet<(Mode, Object)> {
        let granted = self.granted.iter().filter(|(_, _, r)| roles.contains(r));
        let pairs = granted.map(|(x, o, _)| (*x, *o));
        pairs.filter(|pair| self.permissions.contains(pair)).collect()
    }

    /// The openings of a session.
    fn held(&self, s: Session) -> BTreeSet<(Mode, Object)> {
        let held = self.openings.range((s, 0, 0)..(s + 1, 0, 0));
        held.map(|(_, x, o)| (*x, *o)).collect()
    }

    pub fn is_sound(&self) -> bool {
        self.is_reflexive()
            && self.is_transitive()
            && is_antisymmetric(&self.seniority)
            && self.own_links_are_absent()
            && self.is_closed()
            && self.grants_are_permissions()
            && self.users.values().all(|u| *u < USERS)
            && (0..SESSIONS).all(|s| self.is_session_sound(s))
            && self.pairs_are_good()
            && self.is_separated()
            && self.masks_are_true()
    }

    fn is_reflexive(&self) -> bool {
        (0..ROLES).all(|r| self.seniority.contains(&(r, r)))
    }

    fn is_transitive(&self) -> bool {
        let juniors: Vec<BTreeSet<Role>> = (0..ROLES).map(|r| self.juniors(r).collect()).collect();
        self.seniority.iter().all(|(r, q)| juniors[*q as usize].is_subset(&juniors[*r as usize]))
    }

    /// No role is its own direct junior.
    fn own_links_are_absent(&self) -> bool {
        let others = between_others(&self.direct);
        turn!(own_link_sound, self.direct == others, self.direct.is_superset(&others))
    }

    /// Seniority is the closure of the direct juniors; the wrong turns let it be more, or less.
    fn is_closed(&self) -> bool {
        let (rows, closure) = (&self.seniority, closure(&self.direct));
        let fits = turn!(rows_short_of_closure, *rows == closure, rows.is_subset(&closure));
        turn!(rows_beyond_closure, fits, fits || rows.is_superset(&closure))
    }

    fn grants_are_permissions(&self) -> bool {
        let is_permission = |(x, o, _): &(Mode, Object, Role)| self.permissions.contains(&(*x, *o));
        self.granted.iter().all(is_permission)
    }

    /// An idle session has no roles and no openings; of another the active roles are authorised and the openings
    /// effective.
    fn is_session_sound(&self, s: Session) -> bool {
        let active = self.active_in(s);
        let held = self.held(s);
        if self.is_idle(s) {
            return active.is_empty() && held.is_empty();
        }
        active.is_subset(&self.authorised_for(s)) && held.is_subset(&self.effective(s))
    }

    /// No pair is one of error 21.
    fn pairs_are_good(&self) -> bool {
        self.static_sets.values().chain(self.dynamic_sets.values()).all(|set| !set.is_bad())
    }

    /// Every static set holds of each user's authorised roles, and every dynamic one of each session's active roles.
    pub fn is_separated(&self) -> bool {
        let users = turn!(last_user_left_out, 0..USERS, 0..USERS - 1);
        let authorised = |u| turn!(static_by_assigned, self.authorised(u), self.assigned_to(u));
        let active = |s| turn!(dynamic_with_juniors, self.active_in(s), self.with_juniors(seconds(&self.active, s)));
        let among_users = |set: &Separation| users.clone().all(|u| set.holds(&authorised(u)));
        let among_sessions = |set: &Separation| (0..SESSIONS).all(|s| set.holds(&active(s)));
        self.static_sets.values().all(among_users) && self.dynamic_sets.values().all(among_sessions)
    }

    /// The openings are the same, each session has the same effective permissions, and each user the same authorised roles.
    pub fn is_like(&self, other: &State) -> bool {
        self.openings == other.openings
            && (0..SESSIONS).all(|s| self.effective(s) == other.effective(s))
            && (0..USERS).all(|u| self.is_like_for(u, other))
            && turn!(likeness_by_owner, true, self.users == other.users)
    }

    /// The user has the same authorised roles in both states; wrong turns do not ask this of every user.
    fn is_like_for(&self, u: User, other: &State) -> bool {
        let roles = |state: &State| turn!(likeness_by_assigned, state.authorised(u), state.assigned_to(u));
        let is_asked = turn!(likeness_last_user, true, u < USERS - 1);
        let is_asked = turn!(likeness_of_sessions, is_asked, self.users.values().any(|user| *user == u));
        let is_asked = turn!(likeness_without_users, is_asked, false);
        !is_asked || roles(self) == roles(other)
    }
}

/// What a relation gives to a first element.
pub fn seconds(relation: &BTreeSet<(u64, u64)>, first: u64) -> impl Iterator<Item = u64> + '_ {
    relation.range((first, 0)..(first + 1, 0)).map(|(_, second)| *second)
}
