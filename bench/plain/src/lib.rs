//! The sheet guard in plain optimised Rust, without proofs: what the proved guard's speed is measured against.
//!
//! Sets are words, and where few members are likely only these are walked. The functions of this page take lent words and answer
//! with the scope's numbers: 1 yes, 0 no, 12 to 23 a refusal. The comparison of two labels alone takes no words, and
//! answers with a number of its own or a refusal.

mod labels;
mod roles;
mod table;
mod tally;
pub mod transcript;

use table::{is_sound, Table, HOLDS, MASKS, STATIC};

const YES: u64 = 1;
const NO: u64 = 0;

fn yes_or_no(yes: bool) -> u64 {
    if yes {
        YES
    } else {
        NO
    }
}

/// The table that is lent, after refusal 12.
fn lent(words: &mut [u64]) -> Result<&mut Table, u64> {
    words.try_into().map_err(|_| 12)
}

/// The sound table that is lent, after refusals 12 and 13.
fn sound(words: &[u64]) -> Result<&Table, u64> {
    let table: &Table = words.try_into().map_err(|_| 12u64)?;
    if is_sound(table) {
        Ok(table)
    } else {
        Err(13)
    }
}

fn number(answer: Result<u64, u64>) -> u64 {
    answer.unwrap_or_else(|refusal| refusal)
}

/// Writes the table of a role set-up.
pub fn role_setup(words: &mut [u64], juniors: &[u64], permissions: &[u64]) -> u64 {
    number(lent(words).and_then(|table| {
        let juniors: &[u64; 64] = juniors.try_into().map_err(|_| 18u64)?;
        let permissions: &[u64; 8] = permissions.try_into().map_err(|_| 18u64)?;
        roles::set_up(table, juniors, permissions)
    }))
}

/// A role request on a lent table.
pub fn role_request(words: &mut [u64], code: u64, a: u64, b: u64, c: u64) -> u64 {
    number(lent(words).and_then(|table| {
        if !is_sound(table) {
            return Err(13);
        }
        roles::serve(table, code, a, b, c)
    }))
}

/// Whether two tables are alike.
pub fn alike(first: &[u64], second: &[u64]) -> u64 {
    let same = |one: &Table, other: &Table| {
        one[HOLDS..STATIC] == other[HOLDS..STATIC]
            && one[MASKS..] == other[MASKS..]
            && (0..64).all(|user| table::authorised(one, user) == table::authorised(other, user))
    };
    number(sound(first).and_then(|one| Ok(yes_or_no(same(one, sound(second)?)))))
}

/// Writes the table of a label set-up.
pub fn label_setup(words: &mut [u64], clearances: &[u8], labels: &[u8]) -> u64 {
    number(lent(words).and_then(|table| {
        let clearances: &[u8; 64] = clearances.try_into().map_err(|_| 18u64)?;
        let labels: &[u8; 64] = labels.try_into().map_err(|_| 18u64)?;
        labels::set_up(table, clearances, labels)
    }))
}

/// A label request on a lent table.
pub fn label_request(words: &mut [u64], code: u64, a: u64, b: u64, c: u64, spent: &mut u64) -> u64 {
    let outcome = lent(words).and_then(|table| {
        if !is_sound(table) {
            return Err(13);
        }
        if !labels::is_image(table) {
            return Err(14);
        }
        labels::serve(table, code, a, b, c)
    });
    let (answer, figure) = outcome.unwrap_or_else(|refusal| (refusal, 0));
    *spent = figure;
    answer
}

/// How the first of two labels stands to the second: 0 equal, 1 above, 2 below, 3 apart.
pub fn compare_labels(first: u64, second: u64) -> u64 {
    if first > 31 || second > 31 {
        return 16;
    }
    labels::stands(first, second)
}

/// The effective permissions of a session, a word of objects for each mode.
pub fn effective_permissions(words: &[u64], session: u64, masks: &mut [u64]) -> u64 {
    number(sound(words).and_then(|table| {
        if session > 31 || masks.len() != 8 {
            return Err(16);
        }
        masks.copy_from_slice(&table[MASKS + 8 * session as usize..][..8]);
        Ok(YES)
    }))
}

/// The authorised roles of a user, as one word.
pub fn authorised_roles(words: &[u64], user: u64, roles: &mut [u64]) -> u64 {
    number(sound(words).and_then(|table| {
        if user > 63 || roles.len() != 1 {
            return Err(16);
        }
        roles[0] = table::authorised(table, user as usize);
        Ok(YES)
    }))
}

/// A role opening on a lent table with a lent tally, a count for each user.
pub fn open_tallied(words: &mut [u64], counts: &mut [u32; 64], session: u64, object: u64, mode: u64) -> u64 {
    number(lent(words).and_then(|table| {
        if !is_sound(table) {
            return Err(13);
        }
        tally::open_counted(table, counts, session, object, mode)
    }))
}

/// Writes the charge of each user at a rate in cents per thousand openings, and the sum of the charges.
pub fn statement(counts: &[u32; 64], rate: u64, charges: &mut [u64; 64], total: &mut u64) -> u64 {
    number(tally::state(counts, rate, charges, total))
}
