//! The two set-ups.

use crate::labels::{Label, Machine};
use crate::seniority::{between_others, closure, is_antisymmetric};
use crate::state::{Mode, Object, Role, State};
use crate::table::relation;
use crate::turns::turn;
use std::collections::{BTreeMap, BTreeSet};

/// Refusal 18: a lent list has not its length.
fn has_length<T>(list: &[T], length: usize) -> Result<(), u64> {
    if list.len() == length {
        Ok(())
    } else {
        Err(18)
    }
}

/// The state of a role set-up from 64 words of direct juniors and 8 words of permissions.
pub fn roles_from_words(juniors: &[u64], permissions: &[u64]) -> Result<State, u64> {
    has_length(juniors, 64)?;
    has_length(permissions, 8)?;
    roles(&relation(juniors), relation(permissions))
}

/// The state of a role set-up; refusal 20 when two different roles lead to each other. A role's link to itself is ignored.
pub fn roles(given: &BTreeSet<(Role, Role)>, permissions: BTreeSet<(Mode, Object)>) -> Result<State, u64> {
    let direct = turn!(setup_own_links, between_others(given), &between_others(given) | given);
    let seniority = closure(&direct);
    if !is_antisymmetric(&seniority) {
        return Err(20);
    }
    let direct = turn!(setup_all_juniors, direct, between_others(&seniority));
    Ok(State { seniority, direct, permissions, ..State::default() })
}

/// The machine of a label set-up from 64 clearances and 64 object labels.
pub fn machine_from_bytes(clearances: &[u8], labels: &[u8]) -> Result<Machine, u64> {
    has_length(clearances, 64)?;
    has_length(labels, 64)?;
    Ok(Machine::starting(read_labels(clearances)?, read_labels(labels)?))
}

/// Refusal 19: a byte is no label.
fn read_labels(bytes: &[u8]) -> Result<BTreeMap<u64, Label>, u64> {
    let read = |(at, byte): (u64, &u8)| Ok((at, Label::of(u64::from(*byte)).ok_or(19u64)?));
    (0..).zip(bytes).map(read).collect()
}
