//! The table, authorised roles, effective permissions and their masks, separation sets, seniority and soundness.

pub const PERMITTED: usize = 64;
pub const ASSIGNED: usize = 72;
pub const GRANTED: usize = 136;
pub const OWNER: usize = 648;
pub const ACTIVE: usize = 680;
pub const HOLDS: usize = 712;
pub const STATIC: usize = 968;
pub const DYNAMIC: usize = 1000;
pub const DIRECT: usize = 1032;
pub const MASKS: usize = 1096;
pub const WORDS: usize = 1352;

pub type Table = [u64; WORDS];

/// The members of a word, the lowest first.
pub struct Members(pub u64);

impl Iterator for Members {
    type Item = usize;

    #[inline]
    fn next(&mut self) -> Option<usize> {
        if self.0 == 0 {
            return None;
        }
        let lowest = self.0.trailing_zeros() as usize;
        self.0 &= self.0 - 1;
        Some(lowest)
    }
}

#[inline]
pub fn has(word: u64, member: usize) -> bool {
    word >> member & 1 == 1
}

#[inline]
pub fn is_subset(word: u64, of: u64) -> bool {
    word & !of == 0
}

/// The roles and all their juniors.
#[inline]
pub fn covered(t: &Table, roles: u64) -> u64 {
    Members(roles).fold(0, |all, role| all | t[role])
}

#[inline]
pub fn authorised(t: &Table, user: usize) -> u64 {
    covered(t, t[ASSIGNED + user])
}

/// A word of objects for each mode.
pub type Masks = [u64; 8];

/// The places of those words that have a member of the set, from the last word down.
#[inline]
pub fn meeting(words: &[u64], set: u64) -> u64 {
    words.iter().rev().fold(0, |all, word| all << 1 | u64::from(word & set != 0))
}

/// What is granted to one of the roles: where all objects are permissions by going straight through them.
pub fn granted_to(t: &Table, roles: u64) -> Masks {
    let granted = |x: usize| {
        let words = &t[GRANTED + 64 * x..][..64];
        match t[PERMITTED + x] {
            u64::MAX => meeting(words, roles),
            permitted => Members(permitted).filter(|o| words[*o] & roles != 0).fold(0, |all, o| all | 1 << o),
        }
    };
    std::array::from_fn(|x| if roles == 0 { 0 } else { granted(x) })
}

/// What is granted to each role, for the masks of many sessions.
struct Grants([Masks; 64]);

impl Grants {
    fn of(t: &Table) -> Grants {
        let mut grants = [[0; 8]; 64];
        for x in 0..8 {
            for o in Members(t[PERMITTED + x]) {
                Members(t[GRANTED + 64 * x + o]).for_each(|role| grants[role][x] |= 1 << o);
            }
        }
        Grants(grants)
    }

    /// What is granted to one of the roles.
    #[inline]
    fn to(&self, roles: u64) -> Masks {
        let mut masks = [0; 8];
        for role in Members(roles) {
            masks.iter_mut().zip(&self.0[role]).for_each(|(mask, objects)| *mask |= objects);
        }
        masks
    }
}

/// The masks of every session.
pub fn all_masks(t: &Table) -> [Masks; 32] {
    let grants = Grants::of(t);
    std::array::from_fn(|s| grants.to(covered(t, t[ACTIVE + s])))
}

/// Whether a session with these masks holds nothing open that is not in them.
#[inline]
pub fn holds_fit(t: &Table, s: usize, masks: &Masks) -> bool {
    (0..8).fold(0, |beyond, x| beyond | t[HOLDS + 8 * s + x] & !masks[x]) == 0
}

/// Whether the juniors of role r are r and all that its direct juniors have, none of whom has r. Of all 64 roles together
/// this says that no role is its own direct junior, that the juniors are the closure of the direct ones, and that no two
/// roles are juniors of each other.
#[inline]
fn role_fits(t: &Table, r: usize) -> bool {
    let below = covered(t, t[DIRECT + r]);
    !has(below, r) && t[r] == below | 1 << r
}

/// Whether nothing is granted but permissions.
#[inline]
fn grants_fit(t: &Table, x: usize) -> bool {
    let granted = &t[GRANTED + 64 * x..GRANTED + 64 * x + 64];
    match t[PERMITTED + x] {
        0 => granted.iter().fold(0, |all, roles| all | roles) == 0,
        permitted => Members(!permitted).all(|o| granted[o] == 0),
    }
}

/// Whether the active roles of a session are authorised.
#[inline]
pub fn session_fits(t: &Table, s: usize) -> bool {
    let active = t[ACTIVE + s];
    match t[OWNER + s] {
        0 => active == 0,
        owner @ 1..=64 => is_subset(active, authorised(t, owner as usize - 1)),
        _ => false,
    }
}

/// Whether the masks of each session are what is effective, and have all that it holds open.
#[inline]
fn masks_fit(t: &Table) -> bool {
    if are_empty(&t[ACTIVE..HOLDS]) {
        return are_empty(&t[HOLDS..STATIC]) && are_empty(&t[MASKS..]);
    }
    let grants = Grants::of(t);
    (0..32).all(|s| {
        let masks = grants.to(covered(t, t[ACTIVE + s]));
        let fault = |x: usize| (t[MASKS + 8 * s + x] ^ masks[x]) | (t[HOLDS + 8 * s + x] & !masks[x]);
        (0..8).fold(0, |all, x| all | fault(x)) == 0
    })
}

/// The number of members of a word.
#[inline]
fn size(word: u64) -> u64 {
    word.count_ones().into()
}

/// Whether a mask and a bound are a pair of refusal 21.
#[inline]
pub fn is_bad_pair(mask: u64, bound: u64) -> bool {
    mask | bound != 0 && (bound < 2 || bound > size(mask))
}

/// Whether the roles include fewer of the mask than the bound; an empty mask always holds.
#[inline]
pub fn holds(mask: u64, bound: u64, roles: u64) -> bool {
    mask == 0 || size(mask & roles) < bound
}

/// Whether all sets of these pairs of mask and bound hold of the roles.
#[inline]
pub fn all_hold(pairs: &[u64], roles: u64) -> bool {
    pairs.chunks_exact(2).all(|pair| holds(pair[0], pair[1], roles))
}

/// Whether all these words are 0.
#[inline]
pub fn are_empty(words: &[u64]) -> bool {
    words.iter().fold(0, |all, word| all | word) == 0
}

/// Whether every static set holds of each user's roles.
pub fn static_fit(t: &Table) -> bool {
    let sets = &t[STATIC..DYNAMIC];
    are_empty(sets) || (0..64).all(|u| all_hold(sets, authorised(t, u)))
}

/// Whether no pair is one of refusal 21, and every set holds of each user's or each session's roles.
#[inline]
fn sets_fit(t: &Table) -> bool {
    let sets = &t[STATIC..DIRECT];
    are_empty(sets)
        || sets.chunks_exact(2).all(|pair| !is_bad_pair(pair[0], pair[1]))
            && static_fit(t)
            && (0..32).all(|s| all_hold(&t[DYNAMIC..DIRECT], t[ACTIVE + s]))
}

/// All juniors of each role, and the role itself, by its direct juniors.
pub fn closure(direct: &[u64; 64]) -> [u64; 64] {
    let mut rows: [u64; 64] = std::array::from_fn(|r| direct[r] | 1 << r);
    for k in 0..64 {
        let below = rows[k];
        if below == 1 << k {
            continue;
        }
        for row in &mut rows {
            *row |= if has(*row, k) { below } else { 0 };
        }
    }
    rows
}

/// Whether the table is sound.
pub fn is_sound(t: &Table) -> bool {
    (0..64).all(|r| role_fits(t, r))
        && (0..8).all(|x| grants_fit(t, x))
        && (0..32).all(|s| session_fits(t, s))
        && masks_fit(t)
        && sets_fit(t)
}
