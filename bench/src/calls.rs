//! The rows: a call, the table that it is made on, and its answer.

use crate::tables;
use compare::{Guard, PLAIN};
use std::cell::RefCell;

/// What is asked of a guard and a table; its answer.
type Ask = Box<dyn Fn(&Guard, &mut [u64]) -> u64>;

/// A call that is measured.
pub struct Call {
    pub name: &'static str,
    pub table: Vec<u64>,
    pub ask: Ask,
    pub answer: u64,
    /// The words that the call changes, as they were.
    pub restored: Vec<(usize, u64)>,
}

impl Call {
    fn new(name: &'static str, table: &[u64], ask: Ask) -> Call {
        let mut after = table.to_vec();
        let answer = ask(&PLAIN, &mut after);
        let changed = (0..table.len()).filter(|at| table[*at] != after[*at]);
        let restored = changed.map(|at| (at, table[at])).collect();
        Call { name, table: table.to_vec(), ask, answer, restored }
    }
}

fn role_ask([code, a, b, c]: [u64; 4]) -> Ask {
    Box::new(move |guard, table| (guard.role_request)(table, code, a, b, c))
}

/// An opening that lends a tally, which its caller keeps from call to call; the code is that of the opening without one.
fn tallied_ask([_, session, object, mode]: [u64; 4]) -> Ask {
    let counts = RefCell::new([0; 64]);
    Box::new(move |guard, table| (guard.open_tallied)(table, &mut counts.borrow_mut(), session, object, mode))
}

/// A statement; its answer and the total as one number.
fn statement_ask(counts: [u32; 64], rate: u64) -> Ask {
    Box::new(move |guard, _| {
        let (mut charges, mut total) = ([0; 64], 0);
        100 * (guard.statement)(&counts, rate, &mut charges, &mut total) + total
    })
}

/// A label request; its answer and spent as one number.
fn label_ask([code, a, b, c]: [u64; 4]) -> Ask {
    Box::new(move |guard, table| {
        let mut spent = 0;
        100 * (guard.label_request)(table, code, a, b, c, &mut spent) + spent
    })
}

/// The first request of a code that gets this answer and changes the table or not.
fn find(table: &[u64], code: u64, answer: u64, changes: bool, ask: fn([u64; 4]) -> Ask) -> [u64; 4] {
    let all = (0..64 * 64 * 64).map(|number| [code, number % 64, number / 64 % 64, number / 64 / 64]);
    let fits = |request: &[u64; 4]| {
        let mut after = table.to_vec();
        ask(*request)(&PLAIN, &mut after) == answer && (after != table) == changes
    };
    all.into_iter().find(fits).expect("the table has such a request")
}

/// A role request on the plant's table.
fn role(name: &'static str, code: u64, answer: u64) -> Call {
    role_on(&tables::plant(), name, code, answer)
}

/// A role request on a table.
fn role_on(table: &[u64], name: &'static str, code: u64, answer: u64) -> Call {
    let request = find(table, code, answer, answer == 1, role_ask);
    Call::new(name, table, role_ask(request))
}

/// The role opening of an answer that is measured on a table without a tally, with one.
fn tallied_on(table: &[u64], name: &'static str, answer: u64) -> Call {
    let request = find(table, 1, answer, answer == 1, role_ask);
    answered(name, table, tallied_ask(request), answer)
}

/// A link that is answered no for what users and sessions have, and not for how the two roles stand: the first whose junior is
/// not above its senior, or of those that are there the first that is not taken away.
fn kept_link(table: &[u64], name: &'static str, code: u64) -> Call {
    let has = |at: u64, role: u64| table[at as usize] >> role & 1 == 1;
    let counts = |r, q| if code == 13 { !has(q, r) } else { has(1032 + r, q) };
    let pairs = (0..64 * 64).map(|number| (number % 64, number / 64)).filter(|(r, q)| counts(*r, *q));
    let mut links = pairs.map(|(r, q)| Call::new(name, table, role_ask([code, r, q, 0])));
    links.find(|call| call.answer == 0).expect("the table has such a link")
}

/// A label request on the label image; the answer with spent.
fn label(name: &'static str, code: u64, answer: u64, spent: u64) -> Call {
    let table = tables::labels();
    let request = find(&table, code, 100 * answer + spent, answer == 1, label_ask);
    Call::new(name, &table, label_ask(request))
}

/// A call whose answer is known; of a label request it is 100 times the answer, plus spent.
fn answered(name: &'static str, table: &[u64], ask: Ask, answer: u64) -> Call {
    let call = Call::new(name, table, ask);
    assert_eq!(call.answer, answer, "{name}");
    call
}

/// The soundness test, by a request that is refused straight after it.
fn sound(name: &'static str, table: &[u64]) -> Call {
    Call::new(name, table, role_ask([0, 0, 0, 0]))
}

/// Likeness of a table and its copy, for which everything that counts is looked at.
fn likeness(name: &'static str, table: Vec<u64>) -> Call {
    let copy = table.clone();
    answered(name, &table, Box::new(move |guard, table| (guard.alike)(table, &copy)), 1)
}

/// The role requests of every day, on the plant's table.
fn everyday_roles() -> Vec<Call> {
    // session 16 is idle; user 1 has role 1, above the others
    let start = role_ask([3, 16, 1, 1 << 1 | 1 << 3 | 1 << 7 | 1 << 15]);
    vec![
        role("role open, yes", 1, 1),
        role("role open, no", 1, 0),
        tallied_on(&tables::plant(), "role open with a tally, yes", 1),
        tallied_on(&tables::plant(), "role open with a tally, no", 0),
        role("role close", 2, 1),
        answered("role start", &tables::plant(), start, 1),
        role("role activate", 5, 1),
        role("role drop", 6, 1),
        role("role assign", 7, 1),
    ]
}

/// A start on the label image: session 16 is idle, and user 0 is cleared to 0.
fn label_start(level: u64) -> Ask {
    label_ask([3, 16, 0, level])
}

/// The label requests of every day that are answered yes, on the label image.
fn everyday_labels() -> Vec<Call> {
    let start = answered("label start, yes", &tables::labels(), label_start(0), 101);
    vec![label("label open", 1, 1, 1), start]
}

/// The requests of every day, those of a layer behind its soundness test.
pub fn everyday() -> Vec<Call> {
    let (roles, labels) = (sound("sound: plant", &tables::plant()), sound(IMAGE, &tables::labels()));
    let close = label("label close", 2, 1, 1);
    [vec![roles], everyday_roles(), vec![labels], everyday_labels(), vec![close]].into_iter().flatten().collect()
}

/// The name of the soundness test of a label image.
const IMAGE: &str = "sound: label image, 16 sessions";

/// Every row of the table.
pub fn rows() -> Vec<Call> {
    let permissions: Ask = Box::new(|guard, table| {
        let mut masks = [0; 8];
        (guard.effective_permissions)(table, 3, &mut masks)
    });
    let chain = tables::chain();
    let set_up: Ask = Box::new(move |guard, table| (guard.role_setup)(table, &chain, &[u64::MAX; 8]));
    let [clearances, labels] = tables::label_lists();
    let label_set_up: Ask = Box::new(move |guard, table| (guard.label_setup)(table, &clearances, &labels));
    let comparison: Ask =
        Box::new(|guard, _| (0..32 * 32).map(|pair| (guard.compare_labels)(pair / 32, pair % 32)).sum());
    let openings = std::array::from_fn(|user| 1000 * user as u32 + 500);
    let soundness = vec![
        sound("sound: empty table", &tables::empty()),
        sound(IMAGE, &tables::labels()),
        sound("sound: full role table", &tables::full()),
    ];
    let other_roles = vec![
        role("role deassign", 8, 1),
        role("role grant", 9, 1),
        role("role revoke", 10, 1),
        role("role link", 13, 1),
        role("role unlink, yes", 14, 1),
        kept_link(&tables::plant(), "role unlink, no", 14),
    ];
    let others = vec![
        answered("label start, no", &tables::labels(), label_start(1), 1),
        label("label reclear", 5, 1, 2),
        Call::new("effective permissions", &tables::plant(), permissions),
        Call::new("role set-up, chain of 64", &tables::empty(), set_up),
        // on the table that it writes: it changes nothing there, and nothing is put back inside the measured time
        answered("label set-up", &tables::image(), label_set_up, 1),
        // 32 pairs equal, 238 above, as many below and 516 apart: 238 * 1 + 238 * 2 + 516 * 3
        answered("label comparison, 1,024 pairs", &tables::empty(), comparison, 2262),
        // user u has 1,000 * u + 500 openings, at 3 charged 3 * u + 2: 3 * 2,016 + 2 * 64, behind answer 1
        answered("statement", &tables::empty(), statement_ask(openings, 3), 100 + 6176),
        likeness("likeness", tables::plant()),
        likeness("likeness: label image, 16 sessions", tables::labels()),
        likeness("likeness: full role table", tables::full()),
    ];
    let parts = [soundness, everyday_roles(), other_roles, everyday_labels(), others, rows_with_sets()];
    parts.into_iter().flatten().collect()
}

/// The rows on a table with 32 separation sets.
fn rows_with_sets() -> Vec<Call> {
    let table = tables::separated();
    let row = |name, code, answer| role_on(&table, name, code, answer);
    // session 16 is idle; user 18 starts with the two roles that are assigned
    let start = role_ask([3, 16, 18, table[72 + 18]]);
    // set 15 becomes what set 0 is
    let static_set = role_ask([11, 15, table[968], table[969]]);
    let dynamic_set = role_ask([12, 15, table[1000], table[1001]]);
    vec![
        sound("sound: plant, 32 sets", &table),
        row("role open, 32 sets", 1, 1),
        tallied_on(&table, "role open with a tally, 32 sets", 1),
        answered("role start, 32 sets", &table, start, 1),
        row("role activate, yes, 32 sets", 5, 1),
        row("role drop, 32 sets", 6, 1),
        row("role assign, yes, 32 sets", 7, 1),
        row("role assign, no, 32 sets", 7, 0),
        answered("role static set, 32 sets", &table, static_set, 1),
        answered("role dynamic set, 32 sets", &table, dynamic_set, 1),
        row("role link, yes, 32 sets", 13, 1),
        kept_link(&table, "role link, no, 32 sets", 13),
        row("role unlink, yes, 32 sets", 14, 1),
    ]
}
