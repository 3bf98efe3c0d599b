//! The sheet guard a second time, as sets and relations, for comparison with the proved one.
//!
//! It is written from the scope and the change requests alone and is as plain as it can be: a table of words is read into sets
//! ([`State`]), a label table further into a Bell-LaPadula machine ([`Machine`]), the request is carried out there by
//! the words of the scope, and the table is written anew. Nothing here is fast, and no bit is ever masked.
//!
//! The functions of this page take lent words and answer with the scope's numbers: 1 yes, 0 no, 12 to 23 a refusal. The
//! comparison of two labels alone takes no words, and answers with a number of its own or a refusal.

mod labels;
mod masks;
mod requests;
mod seniority;
mod separation;
mod setup;
mod state;
mod table;
mod tally;
pub mod transcript;
mod turns;
#[cfg(feature = "wrong-turn")]
mod wrong;

pub use labels::{Label, Machine, Standing};
pub use separation::Separation;
pub use state::State;
pub use table::WORDS;
pub use turns::{TURNS, WRONG};

use tally::Tally;
use turns::turn;

/// Yes or no, or the number of a refusal.
pub type Answer = Result<bool, u64>;

/// The scope's number of an answer.
pub fn number(answer: Answer) -> u64 {
    match answer {
        Ok(true) => 1,
        Ok(false) => 0,
        Err(refusal) => refusal,
    }
}

/// Writes the table of a role set-up: the direct juniors, their closure, the permissions and nothing else.
pub fn role_setup(table: &mut [u64], juniors: &[u64], permissions: &[u64]) -> u64 {
    number(table::is_table(table).and_then(|()| {
        let state = setup::roles_from_words(juniors, permissions)?;
        table::write(&state, table);
        Ok(true)
    }))
}

/// A role request on a lent table.
pub fn role_request(table: &mut [u64], code: u64, a: u64, b: u64, c: u64) -> u64 {
    number(table::read_sound(table).and_then(|mut state| {
        let answer = state.request(code, [a, b, c])?;
        table::write(&state, table);
        Ok(answer)
    }))
}

/// Whether two tables have the same openings, the same effective permissions of each session and the same authorised roles of
/// each user.
pub fn alike(first: &[u64], second: &[u64]) -> u64 {
    number(table::read_sound(first).and_then(|one| {
        let other = table::read_sound(second)?;
        Ok(one.is_like(&other))
    }))
}

/// Writes the table of a label set-up: the image of a machine with all sessions idle.
pub fn label_setup(table: &mut [u64], clearances: &[u8], labels: &[u8]) -> u64 {
    number(table::is_table(table).and_then(|()| {
        let machine = setup::machine_from_bytes(clearances, labels)?;
        table::write(&machine.image(), table);
        Ok(true)
    }))
}

/// A label request on a lent table; `spent` is the machine's figure, 0 for a refusal.
pub fn label_request(table: &mut [u64], code: u64, a: u64, b: u64, c: u64, spent: &mut u64) -> u64 {
    *spent = 0;
    number(table::read_sound(table).and_then(|state| {
        let mut machine = Machine::of_image(&state).ok_or(14u64)?;
        let (answer, figure) = machine.request(code, [a, b, c])?;
        *spent = figure;
        table::write(&machine.image(), table);
        Ok(answer)
    }))
}

/// How the first of two labels stands to the second: 0 equal, 1 above, 2 below, 3 apart. Refusal 16: one is no label.
pub fn compare_labels(first: u64, second: u64) -> u64 {
    match (Label::of(first), Label::of(second)) {
        (Some(one), Some(other)) => one.stands(other).number(),
        _ => 16,
    }
}

/// The effective permissions of a session, a word of objects for each mode.
pub fn effective_permissions(table: &[u64], session: u64, masks: &mut [u64]) -> u64 {
    number(table::read_sound(table).and_then(|state| {
        let session = requests::below(session, state::SESSIONS)?;
        lent(masks, 8)?;
        masks.fill(0);
        for (mode, object) in state.effective(session) {
            table::add(masks, mode, object);
        }
        Ok(true)
    }))
}

/// The authorised roles of a user, as one word.
pub fn authorised_roles(table: &[u64], user: u64, roles: &mut [u64]) -> u64 {
    number(table::read_sound(table).and_then(|state| {
        let user = requests::below(user, state::USERS)?;
        lent(roles, 1)?;
        roles.fill(0);
        for role in state.authorised(user) {
            table::add(roles, 0, role);
        }
        Ok(true)
    }))
}

/// A role opening on a lent table with a lent tally, a count for each user.
pub fn open_tallied(table: &mut [u64], counts: &mut [u32; 64], session: u64, object: u64, mode: u64) -> u64 {
    number(table::read_sound(table).and_then(|mut state| {
        let mut tally = Tally::read(counts);
        let answer = state.open_tallied(&mut tally, [session, object, mode]);
        table::write(&state, table);
        tally.write(counts);
        answer
    }))
}

/// Writes the charge of each user at a rate in cents per thousand openings, and the sum of the charges.
pub fn statement(counts: &[u32; 64], rate: u64, charges: &mut [u64; 64], total: &mut u64) -> u64 {
    let stated = Tally::read(counts).statement(rate);
    turn!(bad_rate_clears, (), (*charges, *total) = ([0; 64], 0));
    number(stated.map(|statement| {
        statement.charges.iter().for_each(|(u, charge)| charges[*u as usize] = *charge);
        *total = statement.total;
        true
    }))
}

/// The words lent for a result are as many as it has.
fn lent(words: &[u64], length: usize) -> Result<(), u64> {
    if words.len() == length {
        Ok(())
    } else {
        Err(16)
    }
}
