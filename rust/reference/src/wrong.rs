//! What the wrong turns do where it does not fit into an expression. Built with the feature `wrong-turn` alone.

use crate::labels::Machine;
use crate::requests::Request;
use crate::separation::Separation;
use crate::state::{seconds, Mode, Object, Role, Session, State, User, SESSIONS};
use crate::tally::Tally;
use crate::turns::taken;
use std::collections::BTreeSet;

impl Request {
    /// The request with its pair looked at before its arguments' ranges.
    pub fn of_pair(code: u64, [a, b, c]: [u64; 3]) -> Result<Request, u64> {
        match code {
            11 | 12 if Separation::of(b, c).is_bad() => Err(21),
            _ => Request::of(code, [a, b, c]),
        }
    }
}

impl Machine {
    /// Reclearing to the clearance that a user has by adding the role and removing it.
    pub fn reclear_same(&mut self, u: User) -> (bool, u64) {
        if self.sessions.values().any(|(user, _)| *user == u) {
            return (false, 3);
        }
        self.clearances.remove(&u);
        (true, 2)
    }
}

impl State {
    /// The roles and all roles that are senior to one of them.
    pub fn with_seniors(&self, roles: impl Iterator<Item = Role>) -> BTreeSet<Role> {
        let above = |r| self.seniority.iter().filter(move |(_, junior)| *junior == r);
        roles.flat_map(above).map(|(senior, _)| *senior).collect()
    }

    /// The roles assigned to a user, without their juniors.
    pub fn assigned_to(&self, u: User) -> BTreeSet<Role> {
        seconds(&self.assigned, u).collect()
    }

    /// Whether role q is a junior of role r, and not a direct one.
    pub fn is_indirect(&self, r: Role, q: Role) -> bool {
        self.seniority.contains(&(r, q)) && !self.direct.contains(&(r, q))
    }

    /// Whether the user who is deassigned a role has it active in a session.
    pub fn has_active(&self, request: Request) -> bool {
        let has = |s, u| matches!(request, Request::Deassign(user, r) if user == u && self.active.contains(&(s, r)));
        self.users.iter().any(|(s, u)| has(*s, *u))
    }

    /// The masks of the sessions that are not idle.
    pub fn masks_in_use(&self) -> BTreeSet<(Session, Mode, Object)> {
        self.masks.iter().copied().filter(|(s, _, _)| !self.is_idle(*s)).collect()
    }

    /// The state with the masks of another.
    pub fn with_masks_of(&self, other: &State) -> State {
        State { masks: other.masks.clone(), ..self.clone() }
    }

    /// The state with nothing open.
    pub fn without_openings(&self) -> State {
        State { openings: BTreeSet::new(), ..self.clone() }
    }

    /// The state with the assignments of those users alone who are assigned the role.
    pub fn of_users_assigned(&self, r: Role) -> State {
        let mut state = self.clone();
        state.assigned.retain(|(u, _)| self.assigned.contains(&(*u, r)));
        state
    }

    /// Seniority with the juniors of q joined to those of r and of no role above r.
    pub fn with_row_joined(&self, r: Role, q: Role) -> BTreeSet<(Role, Role)> {
        self.seniority.iter().copied().chain(self.juniors(q).map(|p| (r, p))).collect()
    }

    /// The state after an unlink with the seniority from before it.
    pub fn with_old_rows(&self, request: Request, next: State) -> State {
        match request {
            Request::Unlink(..) => State { seniority: self.seniority.clone(), ..next },
            _ => next,
        }
    }

    /// Leaves the masks of some sessions as they were before the request, or takes a pair from all of them.
    pub fn spoil_masks(&mut self, before: &State, request: Request) {
        let turns = taken();
        let first = self.masks.difference(&before.masks).next().map(|(s, _, _)| *s);
        let is_left = |s: Session| match request {
            _ if turns.last_session_masks => s == SESSIONS - 1,
            Request::Start(started, ..) => turns.start_masks_early && s == started,
            Request::Activate(named, _) => turns.activate_masks_early && s == named,
            Request::End(ended) => turns.end_keeps_masks && s == ended,
            Request::Grant(..) if turns.grant_one_session => Some(s) != first,
            Request::Grant(r, ..) => turns.grant_without_seniors && !before.active.contains(&(s, r)),
            Request::Link(..) => turns.link_keeps_masks,
            Request::Unlink(..) => turns.unlink_keeps_masks,
            _ => false,
        };
        self.masks.retain(|(s, _, _)| !is_left(*s));
        self.masks.extend(before.masks.iter().filter(|(s, _, _)| is_left(*s)));
        if let (Request::Revoke(_, x, o), true) = (request, turns.revoke_takes_all) {
            self.masks.retain(|(_, mode, object)| (*mode, *object) != (x, o));
        }
    }

    /// Looks at the count of the session's user before anything else, or counts an opening that will be answered no.
    pub fn spoil_opening(&self, tally: &mut Tally, arguments: [u64; 3]) -> Result<(), u64> {
        let Some(user) = self.users.get(&arguments[0]) else {
            return Ok(());
        };
        if taken().full_before_answer && tally.is_full(*user) {
            return Err(23);
        }
        if taken().no_counted && self.clone().request(1, arguments) == Ok(false) && !tally.is_full(*user) {
            tally.advance(*user);
        }
        Ok(())
    }

    /// Leaves the bound of a set or the direct junior of a link, whatever the answer was.
    pub fn leave_behind(&mut self, request: Request) {
        let (sets, number, bound) = match request {
            Request::StaticSet(number, _, bound) if taken().bound_left => (&mut self.static_sets, number, bound),
            Request::DynamicSet(number, _, bound) if taken().bound_left => (&mut self.dynamic_sets, number, bound),
            Request::Link(r, q) if taken().link_left => {
                self.direct.insert((r, q));
                return;
            }
            _ => return,
        };
        sets.entry(number).or_default().bound = bound;
        sets.retain(|_, set| !set.is_empty());
    }
}
