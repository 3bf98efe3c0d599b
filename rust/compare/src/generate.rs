//! Random cases. A case works on few users, roles, sessions and objects, so that what it does meets.

mod damage;
mod fitted;
mod setups;
mod tally;
mod world;

use crate::case::{Case, Step};
use crate::random::Random;
use crate::words::Layer;
use damage::{damage, links_put, mask_put, pair_put, wrong_length, SECTIONS};
use fitted::fitted;
use reference::WORDS;
use setups::{label_setup, odd_label_setup, odd_role_setup, role_setup};
use tally::{count_put, statement};
use world::{any_call, reading, tallied_opening, World, LABEL_GROWTH, LINK_WEIGHTS, ROLE_GROWTH};

impl Layer {
    /// A set-up that is accepted, and requests that bring the table into use.
    fn beginning(self, random: &mut Random, world: &World) -> Vec<Step> {
        let mut steps = match self {
            Layer::Roles => vec![role_setup(random, world)],
            Layer::Labels => vec![label_setup(random, world)],
        };
        let weights: &[u64] = match self {
            Layer::Roles => &ROLE_GROWTH,
            Layer::Labels => &LABEL_GROWTH,
        };
        steps.extend(list(random, 30, |random| self.weighted(random, world, weights)));
        steps
    }
}

fn list(random: &mut Random, length: u64, mut step: impl FnMut(&mut Random) -> Step) -> Vec<Step> {
    let length = 1 + random.below(length);
    (0..length).map(|_| step(random)).collect()
}

/// A set-up and a list of requests of its layer, with readings between.
pub fn requests(random: &mut Random, layer: Layer) -> Case {
    let world = World::new(random);
    let mut steps = layer.beginning(random, &world);
    steps.extend(list(random, 100, |random| match random.below(20) {
        0 => reading(random, &world),
        _ => layer.any_request(random, &world),
    }));
    fitted(random, &world, steps)
}

/// A role table brought into use, and a list of requests, most of them links and what they are judged by.
pub fn links(random: &mut Random) -> Case {
    let world = World::new(random);
    let mut steps = Layer::Roles.beginning(random, &world);
    steps.extend(list(random, 100, |random| Layer::Roles.weighted(random, &world, &LINK_WEIGHTS)));
    fitted(random, &world, steps)
}

/// A table brought into use, and so many requests of its layer, without those that no transcript has a word for.
pub fn worded_requests(random: &mut Random, layer: Layer, count: usize) -> Case {
    let world = World::of_words(random);
    let mut steps = layer.beginning(random, &world);
    steps.extend((0..count).map(|_| layer.any_request(random, &world)));
    fitted(random, &world, steps)
}

/// A table that comes into use, and rounds of requests, a copy kept, and what is done to the table then.
fn in_rounds(random: &mut Random, disturb: impl Fn(&mut Random, &World, Layer) -> Vec<Step>) -> Case {
    let world = World::new(random);
    let layer = random.one(&Layer::ALL);
    let mut steps = layer.beginning(random, &world);
    for _ in 0..5 {
        steps.extend(list(random, 20, |random| layer.any_request(random, &world)));
        steps.push(Step::Keep);
        steps.extend(disturb(random, &world, layer));
    }
    fitted(random, &world, steps)
}

/// A table in use that is damaged, called and restored, several times over. Role requests meet label tables too.
pub fn damaged(random: &mut Random) -> Case {
    in_rounds(random, |random, world, layer| {
        let damages = match random.below(18) {
            0..=2 => pair_put(random, world),
            3..=7 => links_put(random, world, layer),
            8..=11 => mask_put(random, world),
            12 | 13 => vec![wrong_length(random)],
            _ => list(random, 3, |random| match random.below(6) {
                0 => wrong_length(random),
                1 => any_call(random, world),
                _ => damage(random),
            }),
        };
        let calls = list(random, 6, |random| any_call(random, world));
        [damages, calls, vec![Step::Restore]].concat()
    })
}

/// An assignment or a deassignment, of the first user or the last one often.
fn assignment(random: &mut Random, world: &World) -> Step {
    let user = random.one(&[0, 63, world.users[0]]);
    Step::Role([random.one(&[7, 7, 8]), user, random.one(&world.roles), 0])
}

/// A session ended and begun for another user.
fn handed_on(random: &mut Random, world: &World) -> Vec<Step> {
    let session = random.one(&world.sessions);
    vec![Step::Role([4, session, 0, 0]), Step::Role([3, session, random.one(&world.users), 0])]
}

/// Pairs of tables that differ in a few requests or words, in one role of one user, or in the user of a session.
pub fn likeness(random: &mut Random) -> Case {
    in_rounds(random, |random, world, layer| {
        let changes = match random.below(4) {
            0 => vec![assignment(random, world)],
            1 => handed_on(random, world),
            _ => list(random, 4, |random| match random.below(8) {
                0 => damage(random),
                1 => wrong_length(random),
                _ => layer.any_request(random, world),
            }),
        };
        [changes, vec![Step::Alike, Step::Restore, Step::Alike]].concat()
    })
}

/// Openings that lend a tally, with counts put, statements and requests between, then some on a table that is often damaged.
pub fn tallies(random: &mut Random) -> Case {
    in_rounds(random, |random, world, layer| {
        let calls = list(random, 24, |random| match random.below(16) {
            0..=2 => count_put(random, world),
            3 | 4 => statement(random),
            5..=7 => layer.any_request(random, world),
            _ => tallied_opening(random, world),
        });
        let damages = match random.below(8) {
            0 => vec![wrong_length(random)],
            1 => vec![damage(random)],
            2 => mask_put(random, world),
            _ => Vec::new(),
        };
        let openings = list(random, 3, |random| tallied_opening(random, world));
        [calls, damages, openings, vec![Step::Restore]].concat()
    })
}

/// Every word of a table in use changed in one bit and to garbage, and what is asked of it then; a case a section.
pub fn damage_everywhere(random: &mut Random, layer: Layer) -> Vec<Case> {
    let world = World::new(random);
    let mut start = layer.beginning(random, &world);
    start.extend((0..60).map(|_| layer.any_request(random, &world)));
    start.push(Step::Keep);
    let mut section = |ends: &[u64]| {
        let mut steps = start.clone();
        for at in ends[0]..ends[1] {
            let at = at as usize;
            let flips = [Step::Flip(at, random.below(64)), Step::Flip(at, random.below(64))];
            for damage in flips.into_iter().chain([Step::Put(at, random.set()), Step::Put(at, random.word())]) {
                steps.extend([damage, any_call(random, &world), Step::Restore]);
            }
        }
        fitted(random, &world, steps)
    };
    SECTIONS.windows(2).map(&mut section).collect()
}

/// Set-ups of both kinds over old contents: cycles, lists of wrong lengths, values out of range.
pub fn set_ups(random: &mut Random) -> Case {
    Case(list(random, 12, |random| match random.below(12) {
        0 => wrong_length(random),
        1 => Step::Length(WORDS),
        2 => damage(random),
        3..=7 => odd_role_setup(random),
        _ => odd_label_setup(random),
    }))
}
