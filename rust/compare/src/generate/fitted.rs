//! Arguments fitted to the table that a step of a case meets.

use super::damage::{LINKS, MASKS};
use super::world::World;
use crate::case::{Case, Step};
use crate::guard::PLAIN;
use crate::random::Random;
use crate::run::Run;
use crate::text::members;
use reference::WORDS;

/// The case with many arguments fitted to the table at their step: the roles of starts and separation sets to what users are
/// authorised for or sessions have active, openings to what is effective, drops and revokes to what is there, links to what is
/// linked and what hangs on it, and damage of masks to what they have.
pub fn fitted(random: &mut Random, world: &World, steps: Vec<Step>) -> Case {
    let mut case = Case(steps);
    let mut run = Run::default();
    for step in &mut case.0 {
        match step {
            Step::Role([1, session, object, mode]) if !world.worded && random.chance(60) => {
                (*mode, *object) = choose_opening(random, &run.table, *session).unwrap_or((*mode, *object));
            }
            Step::Tallied(asked) if random.chance(60) => *asked = choose_tallied(random, &run.table).unwrap_or(*asked),
            Step::Role([3, _, user, roles]) => choose_roles(random, world, &run.table, *user, roles),
            Step::Role([6, session, role, _]) if !world.worded && random.chance(30) => {
                let active = pairs(run.table.get(680..712).unwrap_or(&[]));
                (*session, *role) = one_of(random, active.into_iter()).unwrap_or((*session, *role));
            }
            Step::Role([10, role, mode, object]) if !world.worded && random.chance(50) => {
                (*role, *mode, *object) = choose_grant(random, &run.table).unwrap_or((*role, *mode, *object));
            }
            Step::Role([11, _, mask, bound]) if random.chance(75) => {
                let roles = authorised(&run.table, random.one(&world.users));
                (*mask, *bound) = pair_near(random, world, roles, roles);
            }
            Step::Role([12, _, mask, bound]) if random.chance(75) => {
                let [owner, active] = seat(&run.table, random.one(&world.sessions) as usize);
                (*mask, *bound) = pair_near(random, world, authorised(&run.table, owner.wrapping_sub(1)), active);
            }
            Step::Role([code @ (13 | 14), senior, junior, _]) => {
                (*senior, *junior) = choose_link(random, world, &run.table, *code).unwrap_or((*senior, *junior));
            }
            Step::Flip(at, bit) if *at >= MASKS as usize && random.chance(50) => {
                let mask = run.table.get(*at).copied().unwrap_or(0);
                *bit = one_of(random, members(mask)).unwrap_or(*bit);
            }
            _ => {}
        }
        run.step(&PLAIN, step);
    }
    case
}

/// The authorised roles of a user; none where the table or the user is refused.
fn authorised(table: &[u64], user: u64) -> u64 {
    let mut roles = [0];
    (PLAIN.authorised_roles)(table, user, &mut roles);
    roles[0]
}

/// The words of a session's user and active roles, where the table is so long.
fn seat(table: &[u64], session: usize) -> [u64; 2] {
    [648, 680].map(|first| table.get(first + session).copied().unwrap_or(0))
}

/// A pair of mode and object that is effective for a session; none where there is none.
fn choose_opening(random: &mut Random, table: &[u64], session: u64) -> Option<(u64, u64)> {
    let mut masks = [0; 8];
    (PLAIN.effective_permissions)(table, session, &mut masks);
    one_of(random, pairs(&masks).into_iter())
}

/// An opening that is effective, or one that is held already; none where there is none.
fn choose_tallied(random: &mut Random, table: &[u64]) -> Option<[u64; 3]> {
    let first = random.one(&[MASKS as usize, MASKS as usize, 712]);
    let (at, object) = one_of(random, pairs(table.get(first..first + 256)?).into_iter())?;
    Some([at / 8, object, at % 8])
}

/// A role with the mode and the object of a pair that it is granted; none where there is none.
fn choose_grant(random: &mut Random, table: &[u64]) -> Option<(u64, u64, u64)> {
    let (at, role) = one_of(random, pairs(table.get(136..648)?).into_iter())?;
    Some((role, at / 64, at % 64))
}

/// One of the things; none where there is none.
fn one_of<T: Copy>(random: &mut Random, things: impl Iterator<Item = T>) -> Option<T> {
    let things: Vec<T> = things.collect();
    (!things.is_empty()).then(|| random.one(&things))
}

/// Each place in the list with each member of the word there.
fn pairs(words: &[u64]) -> Vec<(u64, u64)> {
    (0..).zip(words).flat_map(|(at, word)| members(*word).map(move |member| (at, member))).collect()
}

/// Often a link that a separation set keeps from being made, or that a session keeps from being taken away, or one that changes
/// masks, where there is one; to be taken away else mostly any link that is there. None where the link is left as it was.
fn choose_link(random: &mut Random, world: &World, table: &[u64], code: u64) -> Option<(u64, u64)> {
    if table.len() != WORDS {
        return None;
    }
    let first = MASKS as usize;
    let mut links = if code == 13 { open_links(world, table) } else { pairs(&table[LINKS as usize..first]) };
    let made = |(r, q): &(u64, u64)| {
        let mut after = table.to_vec();
        ((PLAIN.role_request)(&mut after, code, *r, *q, 0), after)
    };
    let is_kept = |link: &(u64, u64)| made(link).0 == 0;
    let changes_masks = |link: &(u64, u64)| made(link).1[first..] != table[first..];
    let choice = random.below(10);
    if choice < 4 && links.iter().any(is_kept) {
        links.retain(is_kept);
    } else if choice == 4 && links.iter().any(changes_masks) {
        links.retain(changes_masks);
    } else if code == 13 || choice > 7 {
        return None;
    }
    one_of(random, links.into_iter())
}

/// Pairs of the case's roles of which the second is not the first and not above it.
fn open_links(world: &World, table: &[u64]) -> Vec<(u64, u64)> {
    let pairs = world.roles.iter().flat_map(|senior| world.roles.iter().map(move |junior| (*senior, *junior)));
    pairs.filter(|(senior, junior)| table[*junior as usize] >> senior & 1 == 0).collect()
}

/// Mostly some of the authorised roles, all of them, one of the case's few besides, or those that are assigned.
fn choose_roles(random: &mut Random, world: &World, table: &[u64], user: u64, roles: &mut u64) {
    let authorised = authorised(table, user);
    let some = authorised & random.word();
    *roles = match random.below(10) {
        2 | 3 if !world.worded => table.get(72 + (user % 64) as usize).copied().unwrap_or(0),
        0..=3 => some,
        4 => authorised,
        5 | 6 => some | 1 << random.one(&world.roles),
        _ => *roles,
    };
}

/// A mask of some of the roles in reach and two of the case's few, with a bound near the number of those that somebody has,
/// near the number of all, or small; seldom the empty pair.
fn pair_near(random: &mut Random, world: &World, reach: u64, had: u64) -> (u64, u64) {
    let mask = reach & random.word() | 1 << random.one(&world.roles) | 1 << random.one(&world.roles);
    let size = |set: u64| u64::from(set.count_ones());
    match random.below(12) {
        0 => (0, 0),
        1 => (mask, size(mask & had)),
        2..=6 => (mask, size(mask & had).max(1) + 1),
        7 => (mask, size(mask)),
        8 => (mask, size(mask) + 1),
        _ => (mask, 2 + random.below(3)),
    }
}
