//! Damage to a table: between one bit and garbage, and what is nearly in order.

use super::world::World;
use crate::case::Step;
use crate::random::Random;
use crate::words::Layer;
use reference::WORDS;

/// Where the pairs of the separation sets begin.
const SETS: u64 = 968;

/// Where the direct juniors begin.
pub const LINKS: u64 = 1032;

/// Where the masks begin.
pub const MASKS: u64 = 1096;

/// Where each section of the table begins, and its end.
pub const SECTIONS: [u64; 11] = [0, 64, 72, 136, 648, 680, 712, SETS, LINKS, MASKS, WORDS as u64];

/// A place in a random section.
fn place(random: &mut Random) -> usize {
    let section = random.below(SECTIONS.len() as u64 - 1) as usize;
    (SECTIONS[section] + random.below(SECTIONS[section + 1] - SECTIONS[section])) as usize
}

/// Between one bit and garbage.
pub fn damage(random: &mut Random) -> Step {
    let place = place(random);
    match random.below(4) {
        0 => Step::Put(place, random.one(&[0, 1, 2, 63, 64, 65, 66, 1 << 32, u64::MAX])),
        1 => Step::Put(place, random.set()),
        _ => Step::Flip(place, random.below(64)),
    }
}

/// Another length of the table, mostly near the right one.
pub fn wrong_length(random: &mut Random) -> Step {
    let [sets, links, masks] = [SETS, LINKS, MASKS].map(|first| first as usize);
    Step::Length(random.one(&[0, 1, 72, sets, links, masks, WORDS - 1, WORDS - 1, WORDS + 1, WORDS + 1, 5000]))
}

/// A whole pair of one of the 32 sets: a few of the case's roles, and a bound of 2 or 3.
pub fn pair_put(random: &mut Random, world: &World) -> Vec<Step> {
    let at = (SETS + 2 * random.below(32)) as usize;
    let mask = (0..3).fold(0, |mask, _| mask | 1 << random.one(&world.roles));
    vec![Step::Put(at, mask), Step::Put(at + 1, random.one(&[2, 2, 2, 3]))]
}

/// Direct juniors that do not fit seniority: a link made or taken away by a request and turned back in its bit alone, a role
/// that is its own direct junior, or two that are each other's. Or, on a label table mostly, a link less by a request.
pub fn links_put(random: &mut Random, world: &World, layer: Layer) -> Vec<Step> {
    let (senior, junior) = (random.one(&world.roles), random.one(&world.roles));
    let turned = |junior: u64| Step::Flip((LINKS + senior) as usize, junior);
    let unlink = Step::Role([14, senior, junior, 0]);
    match random.below(if layer == Layer::Labels { 10 } else { 5 }) {
        0 => vec![Step::Role([13, senior, junior, 0]), turned(junior)],
        1 => vec![unlink, turned(junior)],
        2 => vec![turned(senior)],
        3 => circle(senior, junior, random.one(&world.roles)),
        _ => vec![unlink],
    }
}

/// On a table without other links, two roles that are each other's direct juniors, and the closure; with a third role in it
/// that no link leads to, unless it is one of the two.
fn circle(one: u64, other: u64, third: u64) -> Vec<Step> {
    let rows = [one, other].map(|role| Step::Put(role as usize, 1 << one | 1 << other | 1 << third));
    let links = [(one, other), (other, one)].map(|(role, junior)| Step::Put((LINKS + role) as usize, 1 << junior));
    let fresh = Step::RoleSetup { juniors: vec![0; 64], permissions: vec![0; 8] };
    [fresh].into_iter().chain(rows).chain(links).collect()
}

/// One bit of a mask turned, of a session of the case or of any.
pub fn mask_put(random: &mut Random, world: &World) -> Vec<Step> {
    let session = if random.chance(80) { random.one(&world.sessions) } else { random.below(32) };
    let at = MASKS + 8 * session + random.one(&world.modes);
    vec![Step::Flip(at as usize, random.one(&world.objects))]
}
