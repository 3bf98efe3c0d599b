//! The fourteen role requests.

use crate::separation::Separation;
use crate::state::{Mode, Object, Role, Session, State, User, MODES, OBJECTS, ROLES, SESSIONS, SETS, USERS};
use crate::table::members;
use crate::turns::turn;
use crate::Answer;
use std::collections::{BTreeMap, BTreeSet};

/// A role request whose arguments are in range.
#[derive(Clone, Copy, Debug)]
pub enum Request {
    Open(Session, Object, Mode),
    Close(Session, Object, Mode),
    /// The last is a mask of roles, any number.
    Start(Session, User, u64),
    End(Session),
    Activate(Session, Role),
    Drop(Session, Role),
    Assign(User, Role),
    Deassign(User, Role),
    Grant(Role, Mode, Object),
    Revoke(Role, Mode, Object),
    /// The number of a set, a mask of roles and a bound.
    StaticSet(u64, u64, u64),
    DynamicSet(u64, u64, u64),
    /// The senior, and the role that becomes its direct junior.
    Link(Role, Role),
    /// The senior, and the direct junior that it no longer has.
    Unlink(Role, Role),
}

/// Refusal 16: an argument is out of range.
pub fn below(argument: u64, count: u64) -> Result<u64, u64> {
    if argument < count {
        Ok(argument)
    } else {
        Err(16)
    }
}

/// Refusal 16: an argument that is not listed is not 0.
pub fn unlisted(arguments: &[u64]) -> Result<(), u64> {
    if arguments.iter().all(|argument| *argument == 0) {
        Ok(())
    } else {
        Err(16)
    }
}

impl Request {
    /// Refusal 15 for a code, then 16 for an argument.
    pub fn of(code: u64, [a, b, c]: [u64; 3]) -> Result<Request, u64> {
        let request = match code {
            1 => Request::Open(below(a, SESSIONS)?, below(b, OBJECTS)?, below(c, MODES)?),
            2 => Request::Close(below(a, SESSIONS)?, below(b, OBJECTS)?, below(c, MODES)?),
            3 => Request::Start(below(a, SESSIONS)?, below(b, USERS)?, c),
            4 => Request::End(below(a, SESSIONS)?),
            5 => Request::Activate(below(a, SESSIONS)?, below(b, ROLES)?),
            6 => Request::Drop(below(a, SESSIONS)?, below(b, ROLES)?),
            7 => Request::Assign(below(a, USERS)?, below(b, ROLES)?),
            8 => Request::Deassign(below(a, USERS)?, below(b, ROLES)?),
            9 => Request::Grant(below(a, ROLES)?, below(b, MODES)?, below(c, OBJECTS)?),
            10 => Request::Revoke(below(a, ROLES)?, below(b, MODES)?, below(c, OBJECTS)?),
            11 => Request::StaticSet(below(a, SETS)?, b, c),
            12 => Request::DynamicSet(below(a, SETS)?, b, c),
            13 => Request::Link(below(a, ROLES)?, below(b, ROLES)?),
            14 => Request::Unlink(below(a, ROLES)?, below(b, ROLES)?),
            _ => return Err(15),
        };
        match code {
            1 | 2 | 3 | 9..=12 => {}
            4 => unlisted(&[b, c])?,
            _ => unlisted(&[c])?,
        }
        Ok(request)
    }
}

impl State {
    /// A role request on a sound state: refusals 15, 16, 21 and 17, then yes or no.
    pub fn request(&mut self, code: u64, arguments: [u64; 3]) -> Answer {
        let request = turn!(pair_before_range, Request::of(code, arguments), Request::of_pair(code, arguments))?;
        match request {
            Request::StaticSet(_, mask, bound) | Request::DynamicSet(_, mask, bound)
                if Separation::of(mask, bound).is_bad() =>
            {
                return Err(21)
            }
            Request::Grant(_, x, o) | Request::Revoke(_, x, o) if !self.permissions.contains(&(x, o)) => {
                return Err(17)
            }
            _ => {}
        }
        let mut next = self.after(request);
        next.refresh();
        #[cfg(feature = "wrong-turn")]
        next.spoil_masks(self, request);
        let yes = self.allows(request, &next);
        if yes {
            *self = turn!(unlink_keeps_rows, next, self.with_old_rows(request, next));
        }
        #[cfg(feature = "wrong-turn")]
        self.leave_behind(request);
        Ok(yes)
    }

    /// The column "yes when".
    fn allows(&self, request: Request, next: &State) -> bool {
        let is_sound = || turn!(judged_with_old_masks, next.is_sound(), next.with_masks_of(self).is_sound());
        match request {
            Request::Open(s, o, x) => self.masks.contains(&(s, x, o)),
            Request::Start(s, u, mask) => self.is_idle(s) && self.are_authorised(u, mask) && next.is_separated(),
            Request::End(s) => !self.is_idle(s),
            Request::Activate(s, r) => self.authorised_for(s).contains(&r) && next.is_separated(),
            Request::Assign(..) => next.is_separated(),
            Request::Deassign(..) => turn!(deassign_direct, is_sound(), !self.has_active(request)),
            Request::Drop(..) => turn!(drop_by_old_masks, is_sound(), self.openings.is_subset(&self.masks)),
            Request::Revoke(..) | Request::StaticSet(..) | Request::DynamicSet(..) => is_sound(),
            Request::Link(r, q) => self.may_link(r, q, next),
            Request::Unlink(r, q) => self.may_unlink(r, q, next),
            Request::Close(..) | Request::Grant(..) => true,
        }
    }

    /// Whether every role of the mask is authorised for the user.
    fn are_authorised(&self, u: User, mask: u64) -> bool {
        let may = turn!(start_by_assigned, self.authorised(u), self.assigned_to(u));
        let mut roles = members(mask).into_iter();
        turn!(start_some_role, roles.all(|r| may.contains(&r)), roles.any(|r| may.contains(&r)))
    }

    /// The column "effect of yes".
    fn after(&self, request: Request) -> State {
        let mut next = self.clone();
        match request {
            Request::Open(s, o, x) => {
                next.openings.insert((s, x, o));
            }
            Request::Close(s, o, x) => {
                next.openings.remove(&(s, x, o));
            }
            Request::Start(s, u, mask) => {
                next.users.insert(s, u);
                let roles = members(mask).into_iter();
                let roles: BTreeSet<Role> = turn!(start_with_juniors, roles.collect(), self.with_juniors(roles));
                next.active.extend(roles.into_iter().map(|r| (s, r)));
            }
            Request::End(s) => {
                next.users.remove(&s);
                next.active.retain(|(session, _)| *session != s);
                next.openings.retain(|(session, _, _)| *session != s);
            }
            Request::Activate(s, r) => {
                next.active.insert((s, r));
            }
            Request::Drop(s, r) => {
                next.active.remove(&(s, r));
            }
            Request::Assign(u, r) => {
                next.assigned.insert((u, r));
            }
            Request::Deassign(u, r) => {
                next.assigned.remove(&(u, r));
            }
            Request::Grant(r, x, o) => {
                next.granted.insert((x, o, r));
            }
            Request::Revoke(r, x, o) => {
                next.granted.remove(&(x, o, r));
            }
            Request::StaticSet(number, mask, bound) => replace(&mut next.static_sets, number, mask, bound),
            Request::DynamicSet(number, mask, bound) => replace(&mut next.dynamic_sets, number, mask, bound),
            Request::Link(r, q) => next.link(r, q),
            Request::Unlink(r, q) => next.unlink(r, q),
        }
        next
    }
}

/// Puts a set in the place of the one that has its number.
fn replace(sets: &mut BTreeMap<u64, Separation>, number: u64, mask: u64, bound: u64) {
    sets.insert(number, Separation::of(mask, bound));
    sets.retain(|_, set| !set.is_empty());
}
