//! The tables that calls are measured on.

use compare::{Guard, PLAIN, WORDS};

const GUARD: Guard = PLAIN;

/// Where the pairs of the separation sets begin, and the masks.
const SETS: usize = 968;
const MASKS: usize = 1096;

/// A request that must be answered yes.
fn role(table: &mut [u64], code: u64, a: u64, b: u64, c: u64) {
    assert_eq!((GUARD.role_request)(table, code, a, b, c), 1);
}

/// An answer that must be yes or no.
fn not_refused(answer: u64) {
    assert!(answer < 2, "refusal {answer}");
}

fn set_up(juniors: &[u64], permissions: &[u64]) -> Vec<u64> {
    let mut table = vec![0; WORDS];
    assert_eq!((GUARD.role_setup)(&mut table, juniors, permissions), 1);
    table
}

/// No roles above others, no permissions, nothing in use.
pub fn empty() -> Vec<u64> {
    set_up(&[0; 64], &[0; 8])
}

/// Each role directly above the one before.
pub fn chain() -> Vec<u64> {
    (0..64u32).map(|role| 1u64.checked_shl(role).map_or(0, |bit| bit >> 1)).collect()
}

/// A chain of 64 roles, every role assigned, granted and active everywhere, and everything open in every session.
pub fn full() -> Vec<u64> {
    let mut table = set_up(&chain(), &[u64::MAX; 8]);
    table[72..648].fill(u64::MAX);
    for (session, owner) in table[648..680].iter_mut().enumerate() {
        *owner = session as u64 + 1;
    }
    table[680..SETS].fill(u64::MAX);
    table[MASKS..].fill(u64::MAX);
    table
}

/// A tree of 64 roles, two roles for each user and each pair, and 16 sessions that hold half of what they may.
pub fn plant() -> Vec<u64> {
    in_use(|user| [user % 16, user * 7 % 64])
}

/// The same with the three highest roles assigned to nobody, and 32 separation sets of eight roles, each as strict as it
/// can be.
pub fn separated() -> Vec<u64> {
    let mut table = in_use(|user| [3 + user % 13, 3 + user * 7 % 61]);
    let users: Vec<u64> = (0..64).map(|user| authorised(&table, user)).collect();
    let sessions = table[680..712].to_vec();
    for set in 0..16 {
        let mask = (0..8).fold(0, |mask, role| mask | 1 << (3 + (5 * set + 7 * role) % 61));
        for (code, had) in [(11, &users), (12, &sessions)] {
            let most = had.iter().map(|roles| (roles & mask).count_ones().into()).max().unwrap_or(0);
            role(&mut table, code, set, mask, 1 + most.max(1));
        }
    }
    table
}

/// The authorised roles of a user.
fn authorised(table: &[u64], user: u64) -> u64 {
    let mut roles = [0];
    assert_eq!((GUARD.authorised_roles)(table, user, &mut roles), 1);
    roles[0]
}

/// The table of a plant whose users have these roles.
fn in_use(roles: impl Fn(u64) -> [u64; 2]) -> Vec<u64> {
    let below = |role: u64| [2 * role + 1, 2 * role + 2].into_iter().filter(|junior| *junior < 64);
    let juniors: Vec<u64> = (0..64).map(|role| below(role).fold(0, |all, junior| all | 1 << junior)).collect();
    let mut table = set_up(&juniors, &[u64::MAX, u64::MAX, u64::MAX, u64::MAX, 0, 0, 0, 0]);
    for object in 0..64 {
        for mode in 0..4 {
            role(&mut table, 9, object, mode, object);
            role(&mut table, 9, (object + 1) % 64, mode, object);
        }
    }
    for user in 0..64 {
        roles(user).into_iter().for_each(|assigned| role(&mut table, 7, user, assigned, 0));
    }
    for session in 0..16 {
        let active = roles(session).into_iter().fold(0, |active, role| active | 1 << role);
        role(&mut table, 3, session, session, active);
        for object in (0..64).step_by(2) {
            for mode in 0..4 {
                not_refused((GUARD.role_request)(&mut table, 1, session, object, mode));
            }
        }
    }
    table
}

/// 64 clearances and 64 object labels, each of the 32 labels twice in either list.
pub fn label_lists() -> [Vec<u8>; 2] {
    [(0..64).map(|user| user % 32).collect(), (0..64).map(|object| object * 5 % 32).collect()]
}

/// The image of a label set-up.
pub fn image() -> Vec<u64> {
    let [clearances, labels] = label_lists();
    let mut table = vec![0; WORDS];
    assert_eq!((GUARD.label_setup)(&mut table, &clearances, &labels), 1);
    table
}

/// The image of a label set-up with 16 sessions at different levels that hold all they may of half of the objects.
pub fn labels() -> Vec<u64> {
    let mut table = image();
    let mut spent = 0;
    for session in 0..16 {
        assert_eq!((GUARD.label_request)(&mut table, 3, session, 2 * session, 2 * session, &mut spent), 1);
        for object in (0..64).step_by(2) {
            for mode in 0..2 {
                not_refused((GUARD.label_request)(&mut table, 1, session, object, mode, &mut spent));
            }
        }
    }
    table
}
