//! Random set-ups: those that are accepted, and odd ones, many of which are not.

use super::world::World;
use crate::case::Step;
use crate::random::Random;

/// Direct juniors that lead from no role back to it, for the roles of the list from the first down.
fn downwards(random: &mut Random, order: &[u64], percent: u64) -> Vec<u64> {
    let mut juniors = vec![0; 64];
    for (at, senior) in order.iter().enumerate() {
        for junior in &order[at..] {
            if random.chance(percent) {
                juniors[*senior as usize] |= 1 << junior;
            }
        }
    }
    juniors
}

/// All roles in a random order.
fn shuffled(random: &mut Random) -> Vec<u64> {
    let mut order: Vec<u64> = (0..64).collect();
    for at in 1..order.len() {
        order.swap(at, random.below(at as u64 + 1) as usize);
    }
    order
}

/// Each role once, in the order of the list.
fn once(list: &[u64]) -> Vec<u64> {
    let first = |(at, role): (usize, &u64)| (!list[..at].contains(role)).then_some(*role);
    list.iter().enumerate().filter_map(first).collect()
}

/// A role set-up that is accepted: the world's roles above each other, or all of them.
pub fn role_setup(random: &mut Random, world: &World) -> Step {
    let juniors = match random.below(24) {
        0 => {
            let order = shuffled(random);
            downwards(random, &order, 4)
        }
        1 => chain(&shuffled(random)),
        _ => downwards(random, &once(&world.roles), 45),
    };
    let mut permissions = vec![0; 8];
    for mode in &world.modes {
        for object in &world.objects {
            if random.chance(80) {
                permissions[*mode as usize] |= 1 << object;
            }
        }
    }
    if random.chance(10) {
        permissions.iter_mut().for_each(|objects| *objects |= random.set());
    }
    Step::RoleSetup { juniors, permissions }
}

/// Each role directly above the next.
fn chain(order: &[u64]) -> Vec<u64> {
    let mut juniors = vec![0; 64];
    for pair in order.windows(2) {
        juniors[pair[0] as usize] = 1 << pair[1];
    }
    juniors
}

pub fn label_setup(random: &mut Random, world: &World) -> Step {
    let mut bytes = || (0..64).map(|_| random.below(32) as u8).collect::<Vec<u8>>();
    let (mut clearances, labels) = (bytes(), bytes());
    for user in &world.users {
        clearances[*user as usize] |= random.one(&[0, 7, 24, 31, 31]);
    }
    Step::LabelSetup { clearances, labels }
}

pub fn odd_role_setup(random: &mut Random) -> Step {
    let order = shuffled(random);
    let mut juniors = match random.below(4) {
        0 => chain(&order),
        1 => (0..64).map(|_| if random.chance(20) { random.set() } else { 0 }).collect(),
        _ => {
            let percent = random.one(&[1, 2, 4, 10, 50]);
            downwards(random, &order, percent)
        }
    };
    if random.chance(40) {
        let (from, to) = (random.below(64) as usize, random.below(64) as usize);
        juniors[order[from.max(to)] as usize] |= 1 << order[from.min(to)];
    }
    let mut permissions: Vec<u64> = (0..8).map(|_| random.set()).collect();
    odd_length(random, &mut juniors);
    odd_length(random, &mut permissions);
    Step::RoleSetup { juniors, permissions }
}

pub fn odd_label_setup(random: &mut Random) -> Step {
    let mut bytes = || {
        let mut bytes: Vec<u8> = (0..64).map(|_| random.below(32) as u8).collect();
        if random.chance(15) {
            bytes[random.below(64) as usize] = random.one(&[32, 33, 64, 255]);
        }
        odd_length(random, &mut bytes);
        bytes
    };
    Step::LabelSetup { clearances: bytes(), labels: bytes() }
}

/// Seldom another length.
fn odd_length<T: Clone + Default>(random: &mut Random, list: &mut Vec<T>) {
    if random.chance(8) {
        let length = random.one(&[0, list.len() - 1, list.len() + 1, 2 * list.len()]);
        list.resize(length, T::default());
    }
}
