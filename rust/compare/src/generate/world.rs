//! The few users, roles, sessions and objects that a case works on, so that what it does meets; and its requests.

use crate::case::Step;
use crate::random::Random;
use crate::words::{Field, Layer};

/// The few numbers that most arguments of a case come from.
pub struct World {
    pub users: Vec<u64>,
    pub roles: Vec<u64>,
    pub sessions: Vec<u64>,
    pub objects: Vec<u64>,
    pub modes: Vec<u64>,
    labels: Vec<u64>,
    sets: Vec<u64>,
    /// Whether every request is one that a transcript has a word for.
    pub worded: bool,
}

impl World {
    /// Numbers of each kind, the last of a kind more often than another.
    pub fn new(random: &mut Random) -> World {
        let mut number = |count: u64| if random.chance(8) { count - 1 } else { random.below(count) };
        let mut pool = |size: usize, count: u64| (0..size).map(|_| number(count)).collect();
        World {
            users: pool(3, 64),
            roles: pool(6, 64),
            sessions: pool(4, 32),
            objects: pool(4, 64),
            modes: pool(2, 8),
            labels: pool(5, 32),
            sets: pool(3, 16),
            worded: false,
        }
    }

    /// The same, for the requests of a transcript.
    pub fn of_words(random: &mut Random) -> World {
        World { worded: true, ..World::new(random) }
    }

    /// Mostly from the case's few, sometimes any number in range, seldom one out of range.
    fn value(&self, random: &mut Random, field: Field) -> u64 {
        let (pool, count): (&[u64], u64) = match field {
            Field::User => (&self.users, 64),
            Field::Role => (&self.roles, 64),
            Field::RoleSet => return random.set(),
            Field::Bound => return random.one(&[0, 0, 1, 2, 2, 3, 4, 32, 63, 64, 65, 1 << 32, u64::MAX]),
            Field::Session => (&self.sessions, 32),
            Field::Object => (&self.objects, 64),
            Field::Mode => (&self.modes, 8),
            Field::LabelMode => (&[0, 1], 2),
            Field::Label => (&self.labels, 32),
            Field::SetNumber if random.chance(8) => return 16,
            Field::SetNumber => (&self.sets, 16),
        };
        match random.below(200) {
            0 => count,
            1 => count + random.below(200),
            2 => random.word(),
            3..=9 => random.below(count),
            _ => random.one(pool),
        }
    }
}

/// How often each role request is made on a table in use, on one that is to come into use, and where links are what matters.
const ROLE_WEIGHTS: [u64; 14] = [20, 6, 8, 3, 16, 8, 9, 8, 12, 8, 6, 6, 4, 4];
pub const ROLE_GROWTH: [u64; 14] = [4, 0, 4, 0, 4, 0, 6, 0, 6, 0, 1, 1, 1, 0];
pub const LINK_WEIGHTS: [u64; 14] = [24, 1, 8, 1, 2, 1, 6, 1, 12, 1, 8, 1, 18, 18];

/// The same for label requests.
const LABEL_WEIGHTS: [u64; 5] = [30, 6, 14, 4, 10];
pub const LABEL_GROWTH: [u64; 5] = [3, 0, 3, 0, 0];

impl Layer {
    /// A request on a table in use.
    pub fn any_request(self, random: &mut Random, world: &World) -> Step {
        match self {
            Layer::Roles => self.weighted(random, world, &ROLE_WEIGHTS),
            Layer::Labels => self.weighted(random, world, &LABEL_WEIGHTS),
        }
    }

    /// A request of a code by weights; one without a request of its own has the arguments of code 1.
    pub fn weighted(self, random: &mut Random, world: &World, weights: &[u64]) -> Step {
        let worded = if world.worded { self.worded() as usize } else { weights.len() };
        let code = code(random, &weights[..worded], self.codes());
        let fields = self.request(code).or(self.request(1)).map_or(&[][..], |word| word.fields);
        let mut argument = |at: usize| match fields.get(at) {
            Some(field) => world.value(random, *field),
            None => unlisted(random),
        };
        Step::request(self, [code, argument(0), argument(1), argument(2)])
    }
}

/// 0, but seldom not.
fn unlisted(random: &mut Random) -> u64 {
    match random.below(100) {
        0 => 1,
        1 => random.word(),
        _ => 0,
    }
}

/// A code by weights, the first that of code 1; seldom one that there is not, the last being given.
fn code(random: &mut Random, weights: &[u64], last: u64) -> u64 {
    if random.chance(3) {
        return random.one(&[0, last + 1, u64::MAX]);
    }
    let mut left = random.below(weights.iter().sum());
    let mut code = 1;
    for weight in weights {
        if left < *weight {
            break;
        }
        left -= weight;
        code += 1;
    }
    code
}

/// A reading of a session's permissions or of a user's roles.
pub fn reading(random: &mut Random, world: &World) -> Step {
    match random.below(2) {
        0 => Step::Permissions(world.value(random, Field::Session)),
        _ => Step::Authorised(world.value(random, Field::User)),
    }
}

/// An opening that lends the tally.
pub fn tallied_opening(random: &mut Random, world: &World) -> Step {
    Step::Tallied([Field::Session, Field::Object, Field::Mode].map(|field| world.value(random, field)))
}

/// A request, a reading, likeness or an opening that lends the tally, of either layer.
pub fn any_call(random: &mut Random, world: &World) -> Step {
    match random.below(11) {
        0 => Step::Alike,
        1 => reading(random, world),
        2 => tallied_opening(random, world),
        3..=6 => Layer::Labels.any_request(random, world),
        _ => Layer::Roles.any_request(random, world),
    }
}
