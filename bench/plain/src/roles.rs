//! The fourteen role requests on a table known to be sound, and the role set-up.

use crate::table::{
    all_hold, all_masks, are_empty, authorised, closure, covered, granted_to, has, holds, holds_fit, is_bad_pair,
    is_subset, meeting, session_fits, static_fit, Masks, Members, Table, ACTIVE, ASSIGNED, DIRECT, DYNAMIC, GRANTED,
    HOLDS, MASKS, OWNER, PERMITTED, STATIC,
};
use crate::{yes_or_no, YES};

/// The arguments as places, or refusal 16 by the largest value of each.
#[inline]
pub fn within(largest: [u64; 3], [a, b, c]: [u64; 3]) -> Result<[usize; 3], u64> {
    if a <= largest[0] && b <= largest[1] && c <= largest[2] {
        Ok([a as usize, b as usize, c as usize])
    } else {
        Err(16)
    }
}

/// A role request on a sound table: refusals 15, 16, 21 and 17, then yes or no. (In the arm of each code its limits are
/// constants.)
#[inline]
pub fn serve(t: &mut Table, code: u64, a: u64, b: u64, c: u64) -> Result<u64, u64> {
    let within = |largest| within(largest, [a, b, c]);
    let yes = match code {
        1 => within([31, 63, 7]).map(|[s, o, x]| open(t, s, o, x)),
        2 => within([31, 63, 7]).map(|[s, o, x]| close(t, s, o, x)),
        3 => within([31, 63, u64::MAX]).map(|[s, u, _]| start(t, s, u, c)),
        4 => within([31, 0, 0]).map(|[s, _, _]| end(t, s)),
        5 => within([31, 63, 0]).map(|[s, r, _]| activate(t, s, r)),
        6 => within([31, 63, 0]).map(|[s, r, _]| drop_role(t, s, r)),
        7 => within([63, 63, 0]).map(|[u, r, _]| assign(t, u, r)),
        8 => within([63, 63, 0]).map(|[u, r, _]| deassign(t, u, r)),
        9 => within([63, 7, 63]).and_then(|[r, x, o]| grant(t, r, x, o)),
        10 => within([63, 7, 63]).and_then(|[r, x, o]| revoke(t, r, x, o)),
        11 => within([15, u64::MAX, u64::MAX]).and_then(|[set, _, _]| separate(t, STATIC + 2 * set, b, c)),
        12 => within([15, u64::MAX, u64::MAX]).and_then(|[set, _, _]| separate(t, DYNAMIC + 2 * set, b, c)),
        13 => within([63, 63, 0]).map(|[r, q, _]| link(t, r, q)),
        14 => within([63, 63, 0]).map(|[r, q, _]| unlink(t, r, q)),
        _ => Err(15),
    };
    yes.map(yes_or_no)
}

#[inline]
fn add(t: &mut Table, at: usize, member: usize) -> bool {
    t[at] |= 1 << member;
    true
}

/// Whether a pair is effective for a session.
#[inline]
pub fn may_open(t: &Table, s: usize, o: usize, x: usize) -> bool {
    has(t[MASKS + 8 * s + x], o)
}

pub fn open(t: &mut Table, s: usize, o: usize, x: usize) -> bool {
    may_open(t, s, o, x) && add(t, HOLDS + 8 * s + x, o)
}

pub fn close(t: &mut Table, s: usize, o: usize, x: usize) -> bool {
    t[HOLDS + 8 * s + x] &= !(1 << o);
    true
}

pub fn start(t: &mut Table, s: usize, u: usize, roles: u64) -> bool {
    let yes = t[OWNER + s] == 0 && is_subset(roles, authorised(t, u)) && dynamic_fit(t, roles);
    if yes {
        t[OWNER + s] = u as u64 + 1;
        seat(t, s, roles);
    }
    yes
}

/// Makes exactly these roles active in a session, with its masks, where the masks have all that it holds open.
#[inline]
fn seat(t: &mut Table, s: usize, roles: u64) -> bool {
    let masks = granted_to(t, covered(t, roles));
    let yes = holds_fit(t, s, &masks);
    if yes {
        t[ACTIVE + s] = roles;
        t[MASKS + 8 * s..][..8].copy_from_slice(&masks);
    }
    yes
}

pub fn end(t: &mut Table, s: usize) -> bool {
    let busy = t[OWNER + s] != 0;
    t[OWNER + s] = 0;
    t[ACTIVE + s] = 0;
    t[HOLDS + 8 * s..][..8].fill(0);
    t[MASKS + 8 * s..][..8].fill(0);
    busy
}

fn activate(t: &mut Table, s: usize, r: usize) -> bool {
    let (owner, roles) = (t[OWNER + s] as usize, t[ACTIVE + s] | 1 << r);
    let yes = owner != 0 && has(authorised(t, owner - 1), r) && dynamic_fit(t, roles);
    yes && (t[ACTIVE + s] == roles || seat(t, s, roles))
}

fn drop_role(t: &mut Table, s: usize, r: usize) -> bool {
    let roles = t[ACTIVE + s] & !(1 << r);
    t[ACTIVE + s] == roles || seat(t, s, roles)
}

/// Whether active roles fit the dynamic sets.
fn dynamic_fit(t: &Table, roles: u64) -> bool {
    let sets = &t[DYNAMIC..DIRECT];
    are_empty(sets) || all_hold(sets, roles)
}

fn assign(t: &mut Table, u: usize, r: usize) -> bool {
    let sets = &t[STATIC..DYNAMIC];
    (are_empty(sets) || all_hold(sets, authorised(t, u) | t[r])) && add(t, ASSIGNED + u, r)
}

fn deassign(t: &mut Table, u: usize, r: usize) -> bool {
    let assigned = t[ASSIGNED + u] & !(1 << r);
    let roles = covered(t, assigned);
    let yes = (0..32).all(|s| t[OWNER + s] != u as u64 + 1 || is_subset(t[ACTIVE + s], roles));
    if yes {
        t[ASSIGNED + u] = assigned;
    }
    yes
}

fn grant(t: &mut Table, r: usize, x: usize, o: usize) -> Result<bool, u64> {
    let at = GRANTED + 64 * x + o;
    if !has(t[PERMITTED + x], o) {
        return Err(17);
    }
    if !has(t[at], r) {
        let granted = t[at] | 1 << r;
        put_granted(t, x, o, granted, meeting(&t[..64], granted));
    }
    Ok(true)
}

fn revoke(t: &mut Table, r: usize, x: usize, o: usize) -> Result<bool, u64> {
    let at = GRANTED + 64 * x + o;
    if !has(t[PERMITTED + x], o) {
        return Err(17);
    }
    if has(t[at], r) {
        let granted = t[at] & !(1 << r);
        let have = meeting(&t[..64], granted);
        if (0..32).any(|s| has(t[HOLDS + 8 * s + x], o) && t[ACTIVE + s] & have == 0) {
            return Ok(false);
        }
        put_granted(t, x, o, granted, have);
    }
    Ok(true)
}

/// Writes the roles that a pair is granted to, and the pair's bit in the masks of all sessions by the roles that have it.
fn put_granted(t: &mut Table, x: usize, o: usize, granted: u64, have: u64) {
    t[GRANTED + 64 * x + o] = granted;
    for s in 0..32 {
        let effective = u64::from(t[ACTIVE + s] & have != 0) << o;
        let mask = &mut t[MASKS + 8 * s + x];
        *mask = *mask & !(1 << o) | effective;
    }
}

/// Replaces the pair at a place where its set holds; refusal 21.
fn separate(t: &mut Table, at: usize, mask: u64, bound: u64) -> Result<bool, u64> {
    if is_bad_pair(mask, bound) {
        return Err(21);
    }
    let yes = match at < DYNAMIC {
        true => (0..64).all(|u| holds(mask, bound, authorised(t, u))),
        false => (0..32).all(|s| holds(mask, bound, t[ACTIVE + s])),
    };
    if yes {
        t[at..at + 2].copy_from_slice(&[mask, bound]);
    }
    Ok(yes)
}

/// Puts role r above q. Where q has r, which is where it is r or above it, the answer is no; authorised roles only grow, so that
/// nothing else can break but static sets.
fn link(t: &mut Table, r: usize, q: usize) -> bool {
    !has(t[q], r) && relink(t, r, t[DIRECT + r] | 1 << q, static_fit, |_, _| true)
}

/// Takes the link from role r to q away. Authorised roles only become fewer, so that only sessions can break.
fn unlink(t: &mut Table, r: usize, q: usize) -> bool {
    let roles_fit = |t: &Table| (0..32).all(|s| session_fits(t, s));
    let openings_fit = |t: &Table, masks: &[Masks; 32]| (0..32).all(|s| holds_fit(t, s, &masks[s]));
    has(t[DIRECT + r], q) && relink(t, r, t[DIRECT + r] & !(1 << q), roles_fit, openings_fit)
}

/// Writes the direct juniors of role r with the juniors and the masks that they lead to, and puts the juniors back where the table
/// does not fit with them.
fn relink(
    t: &mut Table,
    r: usize,
    juniors: u64,
    roles_fit: impl Fn(&Table) -> bool,
    openings_fit: impl Fn(&Table, &[Masks; 32]) -> bool,
) -> bool {
    let rows: [u64; 64] = std::array::from_fn(|a| t[a]);
    let mut direct: [u64; 64] = std::array::from_fn(|a| t[DIRECT + a]);
    direct[r] = juniors;
    t[..64].copy_from_slice(&closure(&direct));
    let masks = roles_fit(t).then(|| all_masks(t)).filter(|masks| openings_fit(t, masks));
    match masks {
        Some(masks) => {
            t[DIRECT + r] = juniors;
            t[MASKS..].copy_from_slice(masks.as_flattened());
        }
        None => t[..64].copy_from_slice(&rows),
    }
    masks.is_some()
}

/// The direct juniors without own bits, their closure, the permissions and nothing else; refusal 20.
pub fn set_up(t: &mut Table, juniors: &[u64; 64], permissions: &[u64; 8]) -> Result<u64, u64> {
    let direct: [u64; 64] = std::array::from_fn(|r| juniors[r] & !(1 << r));
    let rows = closure(&direct);
    if (0..64).any(|r| Members(direct[r]).any(|q| has(rows[q], r))) {
        return Err(20);
    }
    t.fill(0);
    t[..64].copy_from_slice(&rows);
    t[PERMITTED..ASSIGNED].copy_from_slice(permissions);
    t[DIRECT..MASKS].copy_from_slice(&direct);
    Ok(YES)
}
