//! The label requests on a table known to be the sound image of a machine state, and the label set-up.

use crate::roles::{close, end, open, start, within};
use crate::table::{are_empty, has, Table, ACTIVE, ASSIGNED, DIRECT, GRANTED, MASKS, OWNER, PERMITTED, STATIC};
use crate::{yes_or_no, NO, YES};

const EQUAL: u64 = 0;
const ABOVE: u64 = 1;
const BELOW: u64 = 2;

/// How label a stands to b: ABOVE where a has something over b, BELOW where b has over a, both together 3, apart.
pub const fn stands(a: u64, b: u64) -> u64 {
    let more = a / 8 > b / 8 || (a % 8) & !b != 0;
    let less = a / 8 < b / 8 || (b % 8) & !a != 0;
    ABOVE * more as u64 + BELOW * less as u64
}

/// The first 64 words of every image.
const SENIORITY: [u64; 64] = {
    let mut rows = [0; 64];
    let mut l = 0;
    while l < 32 {
        let mut k = 0;
        while k < 32 {
            let standing = stands(l, k);
            if matches!(standing, EQUAL | ABOVE) {
                rows[l as usize] |= 1 << k;
            }
            if matches!(standing, EQUAL | BELOW) {
                rows[32 + l as usize] |= 1 << (32 + k);
            }
            k += 1;
        }
        l += 1;
    }
    rows
};

/// The direct juniors of every image: all juniors but the role itself.
const LINKS: [u64; 64] = {
    let mut links = SENIORITY;
    let mut r = 0;
    while r < 64 {
        links[r] ^= 1 << r;
        r += 1;
    }
    links
};

/// The permissions of every image.
const PERMISSIONS: [u64; 8] = [u64::MAX, u64::MAX, 0, 0, 0, 0, 0, 0];

/// The role of every user beside the clearance.
const LOWEST_WRITER: u64 = 1 << 32;

#[inline]
fn is_one_label(word: u64) -> bool {
    word.is_power_of_two() && word >> 32 == 0
}

/// Whether a sound table is the image of a machine state.
pub fn is_image(t: &Table) -> bool {
    let is_clearance = |word: &u64| word & LOWEST_WRITER != 0 && is_one_label(word ^ LOWEST_WRITER);
    let is_granted = |o: usize| is_one_label(t[GRANTED + o]) && t[GRANTED + 64 + o] == t[GRANTED + o] << 32;
    let is_seat = |s: usize| {
        let level = t[ACTIVE + s] & 0xffff_ffff;
        t[OWNER + s] == 0 || is_one_label(level) && t[ACTIVE + s] == level | level << 32
    };
    t[..PERMITTED] == SENIORITY
        && t[PERMITTED..ASSIGNED] == PERMISSIONS
        && t[ASSIGNED..GRANTED].iter().all(is_clearance)
        && (0..64).all(is_granted)
        && (0..32).all(is_seat)
        && are_empty(&t[STATIC..DIRECT])
        && t[DIRECT..MASKS] == LINKS
}

/// A label request on a sound image: refusals 15 and 16, then yes or no with spent.
#[inline]
pub fn serve(t: &mut Table, code: u64, a: u64, b: u64, c: u64) -> Result<(u64, u64), u64> {
    let within = |largest| within(largest, [a, b, c]);
    let yes = match code {
        1 => within([31, 63, 1]).map(|[s, o, x]| open(t, s, o, x)),
        2 => within([31, 63, 1]).map(|[s, o, x]| close(t, s, o, x)),
        3 => within([31, 63, 31]).map(|[s, u, y]| start(t, s, u, 1 << y | 1 << (32 + y))),
        4 => within([31, 0, 0]).map(|[s, _, _]| end(t, s)),
        5 => return within([63, 31, 0]).map(|[u, y, _]| reclear(t, u, y)),
        _ => Err(15),
    };
    yes.map(|yes| (yes_or_no(yes), 1))
}

fn reclear(t: &mut Table, u: usize, c: usize) -> (u64, u64) {
    if has(t[ASSIGNED + u], c) {
        return (YES, 0);
    }
    let keeps = |s: usize| {
        let level = t[ACTIVE + s] & 0xffff_ffff;
        t[OWNER + s] != u as u64 + 1 || level & !SENIORITY[c] == 0
    };
    if !(0..32).all(keeps) {
        return (NO, 3);
    }
    t[ASSIGNED + u] = LOWEST_WRITER | 1 << c;
    (YES, 2)
}

/// The image with all sessions idle; refusal 19.
pub fn set_up(t: &mut Table, clearances: &[u8; 64], labels: &[u8; 64]) -> Result<u64, u64> {
    if clearances.iter().chain(labels).any(|label| *label > 31) {
        return Err(19);
    }
    t.fill(0);
    t[..PERMITTED].copy_from_slice(&SENIORITY);
    t[PERMITTED..ASSIGNED].copy_from_slice(&PERMISSIONS);
    t[DIRECT..MASKS].copy_from_slice(&LINKS);
    for (at, clearance) in clearances.iter().enumerate() {
        t[ASSIGNED + at] = LOWEST_WRITER | 1 << clearance;
    }
    for (at, label) in labels.iter().enumerate() {
        t[GRANTED + at] = 1 << label;
        t[GRANTED + 64 + at] = 1 << (32 + label);
    }
    Ok(YES)
}
