//! Counts that are full or next to it, or that make halves of a cent, and rates up to the largest and over it.

use super::world::World;
use crate::case::Step;
use crate::random::Random;

/// Another count of a user, mostly one of the case.
pub fn count_put(random: &mut Random, world: &World) -> Step {
    let user = if random.chance(80) { random.one(&world.users) } else { random.below(64) };
    let any = random.word() as u32;
    let counts = [u32::MAX, u32::MAX, u32::MAX - 1, u32::MAX - 2, 0, 499, 500, 501, 1500, any];
    Step::Count(user, random.one(&counts))
}

/// A statement, seldom at a rate that is refused.
pub fn statement(random: &mut Random) -> Step {
    let (any, word) = (random.below(1_000_001), random.word());
    let over = random.one(&[1_000_001, 1_000_001, 1 << 32 | 3, word]);
    Step::Statement(random.one(&[0, 1, 1, 3, 3, 500, 999, 1000, 999_999, 1_000_000, any, any, any, over, over]))
}
