//! What each tablet may open, read in a backup: the table of a file, 1,352 words in little-endian order, session by session.
//! Without a file it is the table of a small plant, as in the project's `examples/backup.out`, and `store FILE` writes that
//! table. A table that is refused ends the example with the number of the refusal as its status.
//!
//! `cargo run --offline -p sheetguard --example backup -- FILE`

use sheetguard::{role_request, sessions, set_up_roles, Answer, Refusal, RoleRequest, Session, WORDS};
use std::ffi::OsStr;
use std::process::ExitCode;

type Table = [u64; WORDS];

/// What ends the example: its status and why.
type Fault = (u8, String);

fn main() -> ExitCode {
    let given: Vec<_> = std::env::args_os().skip(1).collect();
    let outcome = match &given[..] {
        [] => report(&plant(), "the plant"),
        [file] => read(file).and_then(|table| report(&table, &file.to_string_lossy())),
        [word, file] if word == "store" => store(&plant(), file),
        _ => Err((2, "usage: backup [FILE | store FILE]".to_string())),
    };
    match outcome {
        Ok(lines) => {
            print!("{lines}");
            ExitCode::SUCCESS
        }
        Err((status, why)) => {
            eprintln!("{why}");
            ExitCode::from(status)
        }
    }
}

/// Who uses each session, what it may open and what it holds open.
fn report(table: &Table, name: &str) -> Result<String, Fault> {
    let refused = |refusal: Refusal| (refusal.number() as u8, format!("{name}: {refusal}"));
    let sessions = sessions(table).map_err(refused)?;
    let lines = (0..).zip(&sessions).filter_map(|(number, session)| Some(described(number, session.as_ref()?)));
    let idle = sessions.iter().filter(|session| session.is_none()).count();
    Ok(format!("{}idle sessions: {idle}\n", lines.collect::<String>()))
}

/// The lines of a session.
fn described(number: u64, session: &Session) -> String {
    let Session { user, roles, may_open, open } = session;
    let roles = if *roles == 0 { "none".to_string() } else { members(*roles) };
    let (may_open, open) = (by_mode(may_open), by_mode(open));
    format!("session {number}: user {user}, active roles {roles}\n    may open    {may_open}\n    holds open  {open}\n")
}

/// The objects of each mode that has some.
fn by_mode(masks: &[u64; 8]) -> String {
    let used = masks.iter().enumerate().filter(|(_, objects)| **objects != 0);
    let modes: Vec<String> = used.map(|(mode, objects)| format!("mode {mode}: {}", members(*objects))).collect();
    if modes.is_empty() {
        "nothing".to_string()
    } else {
        modes.join(", ")
    }
}

/// The members of a set, a blank between two.
fn members(set: u64) -> String {
    let members: Vec<String> = (0..64).filter(|i| set >> i & 1 == 1).map(|i: u64| i.to_string()).collect();
    members.join(" ")
}

/// The table of a file.
fn read(file: &OsStr) -> Result<Table, Fault> {
    let name = file.to_string_lossy();
    let bytes = std::fs::read(file).map_err(|error| (1, format!("{name}: {error}")))?;
    if bytes.len() != 8 * WORDS {
        let refusal = Refusal::WrongLength;
        return Err((refusal.number() as u8, format!("{name} has {} bytes: {refusal}", bytes.len())));
    }
    Ok(std::array::from_fn(|at| u64::from_le_bytes(std::array::from_fn(|byte| bytes[8 * at + byte]))))
}

/// Writes the table to a file.
fn store(table: &Table, file: &OsStr) -> Result<String, Fault> {
    let bytes: Vec<u8> = table.iter().flat_map(|word| word.to_le_bytes()).collect();
    let written = std::fs::write(file, bytes).map_err(|error| (1, format!("{}: {error}", file.to_string_lossy())));
    written.map(|()| String::new())
}

/// A small plant. Role 1 weighs, role 2 leads the shift and is above 1, role 4 keeps formulas; object 1 is the weights, 2 the
/// batches, 3 the formulas; mode 0 reads and mode 1 writes.
fn plant() -> Table {
    let (mut juniors, mut permissions) = ([0; 64], [0; 8]);
    juniors[2] = 1 << 1;
    permissions[0] = 1 << 1 | 1 << 2 | 1 << 3;
    permissions[1] = 1 << 2 | 1 << 3;
    let mut table = [0; WORDS];
    set_up_roles(&mut table, &juniors, &permissions).expect("the set-up is accepted");
    let requests = [
        RoleRequest::Grant { role: 1, mode: 0, object: 1 },
        RoleRequest::Grant { role: 1, mode: 1, object: 2 },
        RoleRequest::Grant { role: 2, mode: 0, object: 2 },
        RoleRequest::Grant { role: 4, mode: 0, object: 3 },
        RoleRequest::Grant { role: 4, mode: 1, object: 3 },
        RoleRequest::Assign { user: 1, role: 2 },
        RoleRequest::Assign { user: 2, role: 1 },
        RoleRequest::Assign { user: 4, role: 4 },
        RoleRequest::Start { session: 1, user: 1, roles: 1 << 2 },
        RoleRequest::Start { session: 2, user: 2, roles: 1 << 1 },
        RoleRequest::Start { session: 3, user: 4, roles: 0 },
        RoleRequest::Start { session: 31, user: 4, roles: 1 << 4 },
        RoleRequest::Open { session: 1, object: 1, mode: 0 },
        RoleRequest::Open { session: 31, object: 3, mode: 0 },
        RoleRequest::Open { session: 31, object: 3, mode: 1 },
    ];
    for request in requests {
        assert_eq!(role_request(&mut table, request), Ok(Answer::Yes), "{request:?}");
    }
    table
}
