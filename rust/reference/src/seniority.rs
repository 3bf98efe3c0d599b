//! Seniority: what direct links between roles lead to, and how they change.

use crate::state::{seconds, Role, State, ROLES};
use crate::turns::turn;
use std::collections::BTreeSet;

/// Each role with itself and with every role that direct juniors lead to from it: the reflexive, transitive closure.
pub fn closure(direct: &BTreeSet<(Role, Role)>) -> BTreeSet<(Role, Role)> {
    let reach = |r| reached(direct, r).into_iter().map(move |q| (r, q));
    (0..ROLES).flat_map(reach).collect()
}

/// The roles that direct juniors lead to from a role, and the role itself.
fn reached(direct: &BTreeSet<(Role, Role)>, from: Role) -> BTreeSet<Role> {
    let mut seen = BTreeSet::from([from]);
    let mut waiting = vec![from];
    while let Some(role) = waiting.pop() {
        for junior in seconds(direct, role) {
            if seen.insert(junior) {
                waiting.push(junior);
            }
        }
    }
    seen
}

/// Whether no two different roles are each senior to the other.
pub fn is_antisymmetric(seniority: &BTreeSet<(Role, Role)>) -> bool {
    seniority.iter().all(|(r, q)| r == q || !seniority.contains(&(*q, *r)))
}

/// A relation without its pairs of a role and itself.
pub fn between_others(relation: &BTreeSet<(Role, Role)>) -> BTreeSet<(Role, Role)> {
    relation.iter().copied().filter(|(r, q)| r != q).collect()
}

impl State {
    /// Puts role r directly above q.
    pub fn link(&mut self, r: Role, q: Role) {
        let is_recorded = turn!(link_unrecorded, true, !self.seniority.contains(&(r, q)));
        if is_recorded {
            self.direct.insert((r, q));
        }
        self.seniority = turn!(link_row_alone, closure(&self.direct), self.with_row_joined(r, q));
    }

    /// Takes the direct link from r to q away.
    pub fn unlink(&mut self, r: Role, q: Role) {
        self.direct.remove(&(r, q));
        self.seniority = closure(&self.direct);
    }

    /// A link, with the state after it: r is not q, q is not senior to r, and no separation set breaks.
    pub fn may_link(&self, r: Role, q: Role, next: &State) -> bool {
        let is_separated = turn!(link_assigned_users, next.is_separated(), next.of_users_assigned(r).is_separated());
        let is_taken = turn!(link_indirect_refused, true, !self.is_indirect(r, q));
        r != q && !self.seniority.contains(&(q, r)) && is_separated && is_taken
    }

    /// An unlink, with the state after it: there is the direct link, and without it the state is sound.
    pub fn may_unlink(&self, r: Role, q: Role, next: &State) -> bool {
        let is_there = self.direct.contains(&(r, q));
        let is_sound = turn!(unlink_openings, next.is_sound(), next.without_openings().is_sound());
        let is_left = turn!(unlink_other_chain, true, !next.seniority.contains(&(r, q)));
        is_left && turn!(unlink_absent, is_there && is_sound, !is_there || is_sound)
    }
}
