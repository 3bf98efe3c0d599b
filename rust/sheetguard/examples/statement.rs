//! A licence statement: a shift opens columns at work, each opening lends the tally, and what it counted is billed at a rate in
//! cents per thousand openings. Without a rate it is 3, as in the project's `examples/statement.out`. A rate that is refused ends
//! the example with the number of the refusal as its status.
//!
//! `cargo run --offline -p sheetguard --example statement -- 3`

use sheetguard::{open_tallied, role_request, set_up_roles, Answer, Refusal, RoleRequest, Statement, Tally, WORDS};
use std::process::ExitCode;

type Table = [u64; WORDS];

fn main() -> ExitCode {
    let given: Vec<String> = std::env::args_os().skip(1).map(|word| word.to_string_lossy().into()).collect();
    let rate = match &given[..] {
        [] => Some(3),
        [rate] => rate.parse().ok(),
        _ => None,
    };
    let Some(rate) = rate else {
        eprintln!("usage: statement [RATE], in cents per thousand openings");
        return ExitCode::from(2);
    };
    let tally = worked();
    match tally.statement(rate) {
        Ok(statement) => {
            print!("{}", bill(&tally, rate, &statement));
            ExitCode::SUCCESS
        }
        Err(refusal) => {
            eprintln!("rate {rate}: {refusal}");
            ExitCode::from(refusal.number() as u8)
        }
    }
}

/// The lines of a bill: how charges are made, a row for each user with openings, and the sum.
fn bill(tally: &Tally, rate: u64, statement: &Statement) -> String {
    let billed = (0..).zip(tally.counts()).zip(statement.charges).filter(|((_, count), _)| **count > 0);
    let row = |(user, count, charge): &(u64, u64, u64)| {
        let exact = count * rate;
        let cents = format!("{}.{:03}", grouped(exact / 1000), exact % 1000);
        format!("{user:>6} {:>12} {cents:>18} {:>14}\n", grouped(*count), grouped(*charge))
    };
    let rows: Vec<(u64, u64, u64)> = billed.map(|((user, count), charge)| (user, u64::from(*count), charge)).collect();
    let openings = rows.iter().map(|(_, count, _)| count).sum();
    let charges: Vec<String> = rows.iter().map(|(_, _, charge)| grouped(*charge)).collect();
    let total = statement.total;
    [
        format!("Licence statement, at {} cents per thousand openings\n", grouped(rate)),
        format!(
            "A charge is openings * {} / 1,000 in cents, rounded to the nearest cent, half a cent up.\n\n",
            grouped(rate)
        ),
        format!("{:>6} {:>12} {:>18} {:>14}\n", "user", "openings", "exact, in cents", "charge, cents"),
        rows.iter().map(row).collect(),
        format!("{:>6} {:>12} {:>18} {:>14}\n\n", "total", grouped(openings), "", grouped(total)),
        format!("The total is the sum of the charges: {} = {} cents.\n", charges.join(" + "), grouped(total)),
        format!("{} users have no openings and are charged nothing.\n", 64 - rows.len()),
    ]
    .concat()
}

/// A number with commas between thousands.
fn grouped(number: u64) -> String {
    match number {
        0..=999 => number.to_string(),
        _ => format!("{},{:03}", grouped(number / 1000), number % 1000),
    }
}

/// What a day's openings have counted: the tally is stored between two shifts and restored.
fn worked() -> Tally {
    let (mut table, mut tally) = (plant(), Tally::new());
    // the lead of session 1 opens column 9 and keeps it open, the weigher of session 2 closes column 10 each time
    open(&mut table, &mut tally, 1, 9, 1_000);
    for _ in 0..7_777 {
        open(&mut table, &mut tally, 2, 10, 1);
        ask(&mut table, RoleRequest::Close { session: 2, object: 10, mode: 0 });
    }
    let stored: [u32; 64] = tally.into();
    let mut tally = Tally::from(stored);
    // the lead again, on another tablet, and the keeper of formulas
    ask(&mut table, RoleRequest::End { session: 1 });
    ask(&mut table, RoleRequest::Start { session: 7, user: 1, roles: 1 << 2 });
    open(&mut table, &mut tally, 7, 10, 500);
    open(&mut table, &mut tally, 3, 11, 500);
    // what is not billed: an opening answered no, one that is refused, and one that lends no tally
    assert_eq!(open_tallied(&mut table, &mut tally, 2, 11, 0), Ok(Answer::No));
    assert_eq!(open_tallied(&mut table, &mut tally, 32, 9, 0), Err(Refusal::BadArgument));
    ask(&mut table, RoleRequest::Open { session: 3, object: 11, mode: 0 });
    tally
}

/// So many openings of an object to read, each answered yes and counted.
fn open(table: &mut Table, tally: &mut Tally, session: u64, object: u64, times: u64) {
    for _ in 0..times {
        assert_eq!(open_tallied(table, tally, session, object, 0), Ok(Answer::Yes));
    }
}

/// A request that is answered yes.
fn ask(table: &mut Table, request: RoleRequest) {
    assert_eq!(role_request(table, request), Ok(Answer::Yes), "{request:?}");
}

/// A small plant. Role 1 weighs and reads columns 9 and 10, role 2 leads the shift and is above 1, role 4 keeps formulas and
/// reads column 11.
fn plant() -> Table {
    let (mut juniors, mut permissions) = ([0; 64], [0; 8]);
    juniors[2] = 1 << 1;
    permissions[0] = 1 << 9 | 1 << 10 | 1 << 11;
    let mut table = [0; WORDS];
    set_up_roles(&mut table, &juniors, &permissions).expect("the set-up is accepted");
    for request in [
        RoleRequest::Grant { role: 1, mode: 0, object: 9 },
        RoleRequest::Grant { role: 1, mode: 0, object: 10 },
        RoleRequest::Grant { role: 4, mode: 0, object: 11 },
        RoleRequest::Assign { user: 1, role: 2 },
        RoleRequest::Assign { user: 2, role: 1 },
        RoleRequest::Assign { user: 4, role: 4 },
        RoleRequest::Start { session: 1, user: 1, roles: 1 << 2 },
        RoleRequest::Start { session: 2, user: 2, roles: 1 << 1 },
        RoleRequest::Start { session: 3, user: 4, roles: 1 << 4 },
    ] {
        ask(&mut table, request);
    }
    table
}
