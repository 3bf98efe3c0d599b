//! The table of words: reading it into sets, and writing sets into it.

use crate::separation::Separation;
use crate::state::{Mode, Session, State, MODES, OBJECTS, ROLES, SESSIONS, SETS, USERS};
use crate::turns::turn;
use std::collections::{BTreeMap, BTreeSet};

const PERMITTED: u64 = ROLES;
const ASSIGNED: u64 = PERMITTED + MODES;
const GRANTED: u64 = ASSIGNED + USERS;
const OWNER: u64 = GRANTED + MODES * OBJECTS;
const ACTIVE: u64 = OWNER + SESSIONS;
const HOLDS: u64 = ACTIVE + SESSIONS;
const STATIC: u64 = HOLDS + SESSIONS * MODES;
const DYNAMIC: u64 = STATIC + 2 * SETS;
const DIRECT: u64 = DYNAMIC + 2 * SETS;
const MASKS: u64 = DIRECT + ROLES;

/// The number of words of a table.
pub const WORDS: usize = (MASKS + SESSIONS * MODES) as usize;

/// Refusal 12: the table has not its number of words.
pub fn is_table(words: &[u64]) -> Result<(), u64> {
    if words.len() == WORDS {
        Ok(())
    } else {
        Err(12)
    }
}

/// What the table says, after refusals 12 and 13.
pub fn read_sound(words: &[u64]) -> Result<State, u64> {
    is_table(words)?;
    let state = read(words);
    if state.is_sound() {
        Ok(state)
    } else {
        Err(13)
    }
}

/// The numbers whose bits are set in a word.
pub fn members(word: u64) -> Vec<u64> {
    let mut members = Vec::new();
    let (mut left, mut number) = (word, 0);
    while left > 0 {
        if left % 2 == 1 {
            members.push(number);
        }
        left /= 2;
        number += 1;
    }
    members
}

/// Sets a bit of a word that is not set yet.
pub fn add(words: &mut [u64], at: u64, member: u64) {
    words[at as usize] += 2u64.pow(member as u32);
}

fn read(words: &[u64]) -> State {
    let section = |first: u64, end: u64| &words[first as usize..end as usize];
    let users = (0..).zip(section(OWNER, ACTIVE)).filter(|(_, word)| **word > 0);
    State {
        seniority: relation(section(0, PERMITTED)),
        permissions: relation(section(PERMITTED, ASSIGNED)),
        assigned: relation(section(ASSIGNED, GRANTED)),
        granted: with_places(relation(section(GRANTED, OWNER)), |at| (at / OBJECTS, at % OBJECTS)),
        users: users.map(|(s, word)| (s, word - 1)).collect(),
        active: relation(section(ACTIVE, HOLDS)),
        openings: with_places(relation(section(HOLDS, STATIC)), |at| (at / MODES, at % MODES)),
        static_sets: read_sets(section(STATIC, DYNAMIC)),
        dynamic_sets: read_sets(section(DYNAMIC, DIRECT)),
        direct: relation(section(DIRECT, MASKS)),
        masks: with_places(relation(section(MASKS, WORDS as u64)), mask_of),
    }
}

/// The pairs of a place in the list and a member of the word there.
pub fn relation(words: &[u64]) -> BTreeSet<(u64, u64)> {
    let row = |(at, word): (u64, &u64)| members(*word).into_iter().map(move |member| (at, member));
    (0..).zip(words).flat_map(row).collect()
}

/// The relation with the two numbers that a place stands for.
fn with_places(pairs: BTreeSet<(u64, u64)>, of: fn(u64) -> (u64, u64)) -> BTreeSet<(u64, u64, u64)> {
    let triple = |(at, member)| {
        let (first, second) = of(at);
        (first, second, member)
    };
    pairs.into_iter().map(triple).collect()
}

/// The sets of 16 pairs of mask and bound, without the empty pairs.
fn read_sets(words: &[u64]) -> BTreeMap<u64, Separation> {
    let sets = words.chunks(2).map(|pair| Separation::of(pair[0], pair[1]));
    (0..).zip(sets).filter(|(_, set)| !set.is_empty()).collect()
}

/// The session and the mode of a mask: the eight of a session together, the sessions in order.
fn mask_of(place: u64) -> (Session, Mode) {
    turn!(masks_by_mode, (place / MODES, place % MODES), (place % SESSIONS, place / SESSIONS))
}

/// The place of a session's mask of a mode.
fn place_of(s: Session, x: Mode) -> u64 {
    turn!(masks_by_mode, MODES * s + x, SESSIONS * x + s)
}

/// Writes the words that say what the state does.
pub fn write(state: &State, words: &mut [u64]) {
    words.fill(0);
    state.seniority.iter().for_each(|(r, q)| add(words, *r, *q));
    state.permissions.iter().for_each(|(x, o)| add(words, PERMITTED + x, *o));
    state.assigned.iter().for_each(|(u, r)| add(words, ASSIGNED + u, *r));
    state.granted.iter().for_each(|(x, o, r)| add(words, GRANTED + OBJECTS * x + o, *r));
    state.users.iter().for_each(|(s, u)| words[(OWNER + s) as usize] = u + 1);
    state.active.iter().for_each(|(s, r)| add(words, ACTIVE + s, *r));
    state.openings.iter().for_each(|(s, x, o)| add(words, HOLDS + MODES * s + x, *o));
    state.static_sets.iter().for_each(|(k, set)| write_set(words, STATIC + 2 * k, set));
    state.dynamic_sets.iter().for_each(|(k, set)| write_set(words, DYNAMIC + 2 * k, set));
    state.direct.iter().for_each(|(r, q)| add(words, DIRECT + r, *q));
    state.masks.iter().for_each(|(s, x, o)| add(words, MASKS + place_of(*s, *x), *o));
}

/// Writes the mask and the bound of a set.
fn write_set(words: &mut [u64], at: u64, set: &Separation) {
    set.roles.iter().for_each(|r| add(words, at, *r));
    words[at as usize + 1] = set.bound;
}
