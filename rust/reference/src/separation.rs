//! A separation set: roles of which one user, or one session, may have only so many.

use crate::state::Role;
use crate::table::members;
use crate::turns::turn;
use std::collections::BTreeSet;

/// A set of roles and its bound.
#[derive(Clone, Debug, Default, PartialEq, Eq)]
pub struct Separation {
    pub roles: BTreeSet<Role>,
    pub bound: u64,
}

impl Separation {
    /// The set of a mask of roles and a bound.
    pub fn of(mask: u64, bound: u64) -> Separation {
        Separation { roles: members(mask).into_iter().collect(), bound }
    }

    /// An empty pair: no roles, and 0 for the bound.
    pub fn is_empty(&self) -> bool {
        self.roles.is_empty() && self.bound == 0
    }

    /// Error 21: not empty, and the bound is below 2 or above the number of roles.
    pub fn is_bad(&self) -> bool {
        let most = turn!(bound_of_all_refused, self.roles.len(), self.roles.len().saturating_sub(1)) as u64;
        !self.is_empty() && !(2..=most).contains(&self.bound)
    }

    /// Whether the given roles include fewer of the set's than its bound; an empty pair always holds.
    pub fn holds(&self, roles: &BTreeSet<Role>) -> bool {
        let together = self.roles.intersection(roles).count() as u64;
        self.is_empty() || turn!(bound_reached, together < self.bound, together <= self.bound)
    }
}
