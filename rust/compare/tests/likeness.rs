//! Likeness on every guard: tables that differ in one thing that counts, at its first and its last place, and tables that differ
//! in what does not count; the refusals in their order; alike tables in use; and what random pairs of tables come to.

use crate::common::{after, ask, every_kind, expect, Counts, MASKS};
use compare::{guards, likeness, members, requests, Case, Guard, Layer, Random, Run, Step, PLAIN, WORDS};

/// Role 5 above 3, 3 above 1; (0, 9) is a permission.
const ABOVE: &str = "roles; above 5 3; above 3 1; permit 0 9; run";

/// Users 0 and 63 have roles 0 and 63, granted (0, 0) and (7, 63), and sessions 0 and 31 with both active.
const ENDS: &str = "roles; permit 0 0; permit 7 63; run; grant 0 0 0; grant 63 7 63
    assign 0 0; assign 0 63; assign 63 0; assign 63 63
    start 0 0 9223372036854775809; start 31 63 9223372036854775809";

/// What a guard answers of two tables, in this order and in the other; each is like itself.
fn compared(guard: &Guard, first: &[u64], second: &[u64]) -> [u64; 2] {
    assert_eq!([(guard.alike)(first, first), (guard.alike)(second, second)], [1, 1], "{}", guard.name);
    [(guard.alike)(first, second), (guard.alike)(second, first)]
}

/// Holds every guard to an answer for the tables after lines, and after the same lines and more.
fn hold_after(lines: &str, more: &str, answer: u64) {
    hold(lines, &format!("{lines}; {more}"), answer);
}

/// Holds every guard to an answer for the tables after lines and after other lines.
fn hold(first: &str, second: &str, answer: u64) {
    for guard in guards() {
        let tables = [after(guard, first).table, after(guard, second).table];
        assert_eq!(compared(guard, &tables[0], &tables[1]), [answer; 2], "{first} / {second} by the {}", guard.name);
    }
}

/// The authorised roles of users count, and not how they have them.
#[test]
fn roles_of_users() {
    let assigned = |lines: &str| format!("{ABOVE}; {lines}");
    for (first, second, answer) in [
        ("assign 2 5", "assign 2 5; assign 2 3", 1),
        ("assign 2 5", "assign 2 3; assign 2 5; assign 2 1", 1),
        ("assign 2 5", "assign 2 3", 0),
        ("assign 2 3", "assign 2 1", 0),
        ("assign 2 5", "assign 3 5", 0),
        ("assign 2 5; assign 3 1", "assign 2 1; assign 3 5", 0),
        ("assign 2 5", "assign 2 5; deassign 2 5", 0),
        ("assign 2 5; deassign 2 5", "", 1),
    ] {
        hold(&assigned(first), &assigned(second), answer);
    }
}

/// One authorised role of one user, the first and the last of each; and of every user.
#[test]
fn every_user() {
    for (user, role) in [(0, 0), (0, 63), (63, 0), (63, 63)] {
        hold_after("roles; run", &format!("assign {user} {role}"), 0);
    }
    for guard in guards() {
        let empty = after(guard, "roles; run").table;
        for user in 0..64 {
            let mut table = empty.clone();
            table[72 + user] = 1 << (user * 5 % 64);
            assert_eq!(compared(guard, &empty, &table), [0, 0], "user {user} by the {}", guard.name);
        }
    }
}

/// One opening of one session, and one effective permission, of the first and the last.
#[test]
fn first_and_last_session() {
    for more in ["open 0 0 0", "open 0 63 7", "open 31 0 0", "open 31 63 7"] {
        hold_after(ENDS, more, 0);
        hold_after(&format!("{ENDS}; {more}"), &more.replace("open", "close"), 0);
    }
    for more in ["drop 0 0", "drop 0 63", "drop 31 0", "drop 31 63"] {
        hold_after(ENDS, more, 0);
    }
}

/// One opening, and one effective permission, of every session and mode, of one object or another.
#[test]
fn every_session_and_mode() {
    let permits: String = (0..8).map(|mode| format!("permit {mode} {}; ", 9 * mode)).collect();
    let grants: String = (0..8).map(|mode| format!("; grant {mode} {mode} {}", 9 * mode)).collect();
    let assigns: String = (0..8).map(|role| format!("; assign 1 {role}")).collect();
    let starts: String = (0..32).map(|session| format!("; start {session} 1 255")).collect();
    let lines = format!("roles; {permits}run{grants}{assigns}{starts}");
    for guard in guards() {
        let whole = after(guard, &lines).table;
        for (session, mode) in (0..32).flat_map(|session| (0..8u64).map(move |mode| (session, mode))) {
            let opened = ([1, session, 9 * mode, mode], (712 + 8 * session + mode, 1 << (9 * mode)));
            let dropped = ([6, session, mode, 0], (680 + session, 255 & !(1 << mode)));
            for (asked, (at, word)) in [opened, dropped] {
                let mut run = Run::default();
                run.table.clone_from(&whole);
                ask(&mut run, guard, asked, 1, &[(at as usize, word)]);
                let answers = [(guard.alike)(&whole, &run.table), (guard.alike)(&run.table, &whole)];
                assert_eq!(answers, [0, 0], "{asked:?} by the {}", guard.name);
            }
        }
    }
}

/// The other words of a table do not count: in each section the first and the last place, and more.
#[test]
fn what_does_not_count() {
    let lines = "roles; above 1 0; above 62 63; permit 0 0; permit 7 63; run
        assign 0 1; assign 63 62; start 0 0 0; start 31 63 0";
    for more in [
        // assignments of what a user has through another role
        "assign 0 0",
        "assign 63 63",
        // active roles that give nothing to open
        "activate 0 0",
        "activate 31 63",
        // sessions without roles, and whose they are
        "end 0",
        "end 31",
        "end 0; start 0 63 0",
        "end 31; start 31 0 0",
        // grants to roles that nobody has active
        "grant 0 0 0",
        "grant 63 7 63",
        // separation sets
        "!role 11 0 9223372036854775809 2",
        "!role 11 15 9223372036854775809 2",
        "!role 12 0 9223372036854775809 2",
        "!role 12 15 9223372036854775809 2",
    ] {
        hold_after(lines, more, 1);
    }
    // seniority and links of roles that nobody is authorised for
    for more in ["!role 13 0 63 0", "!role 13 63 0 0", "!role 13 63 62 0; !role 13 62 0 0"] {
        hold_after("roles; run; assign 2 5", more, 1);
    }
    hold(ABOVE, "roles; run", 1);
    hold(ABOVE, &ABOVE.replace("above 5 3;", "above 5 3; above 5 4;"), 1);
    // links beside a chain, of roles in use
    let lines = format!("{ABOVE}; grant 1 0 9; assign 2 5; start 0 2 32; open 0 9 0");
    hold_after(&lines, "!role 13 5 1 0", 1);
    hold_after(&lines, "!role 13 5 1 0; !role 13 7 5 0; !role 14 3 1 0", 1);
    // a permission that a session has through another role
    hold_after(&lines, "grant 3 0 9", 1);
    hold_after(&lines, "grant 3 0 9; revoke 1 0 9", 1);
    hold_after(&lines, "activate 0 1", 1);
    // which pairs are permissions, where these are not granted
    hold(ENDS, &ENDS.replace("permit 0 0;", "permit 0 0; permit 0 1; permit 7 62;"), 1);
    hold(ABOVE, &ABOVE.replace("permit 0 9;", "permit 0 0; permit 7 63;"), 1);
}

/// A link counts where somebody is authorised for more or less by it, or may open more or less.
#[test]
fn links_that_count() {
    let lines = format!("{ABOVE}; assign 2 5; assign 3 7");
    for more in ["!role 13 1 0 0", "!role 13 3 62 0", "!role 13 7 1 0", "!role 14 5 3 0", "!role 14 3 1 0"] {
        hold_after(&lines, more, 0);
    }
    // 6 is assigned beside 5 and active, and a link makes it senior to 1, which user 4 has already
    let lines = format!("{ABOVE}; grant 1 0 9; assign 4 5; assign 4 6; start 9 4 64");
    hold_after(&lines, "!role 13 6 1 0", 0);
    hold_after(&lines.replace("start 9 4 64", "start 9 4 16").replace("assign 4 6", "assign 4 4"), "!role 13 6 1 0", 1);
}

/// Label tables: a clearance counts, since it is a role of a user, and so does a level that may open something else.
#[test]
fn label_tables() {
    let lines = "lattice; clear 0 17; clear 63 17; label 9 17; run";
    for (second, answer) in [
        (lines.to_string(), 1),
        (lines.replace("clear 63 17", "clear 63 18"), 0),
        (lines.replace("clear 0 17", "clear 0 16"), 0),
        (lines.replace("label 9 17", "label 9 18"), 1), // nothing is started, so that nobody may open it
        (format!("{lines}; reclear 63 31; reclear 63 17"), 1),
        (format!("{lines}; reclear 63 31"), 0),
        (format!("{lines}; start 0 0 0"), 0),
        (format!("{lines}; start 0 0 0; end 0"), 1),
    ] {
        hold(lines, &second, answer);
    }
    let started = |user: u64| format!("{lines}; start 31 {user} 17; open 31 9 0");
    hold(&started(0), &started(63), 1);
}

/// The first table is judged whole, its length and then its words, before the second one is looked at.
#[test]
fn refusals_in_order() {
    let sound = after(&PLAIN, ENDS).table;
    let mut unsound = sound.clone();
    unsound[WORDS - 1] ^= 1 << 63;
    let others = [0, 712, 967, 1096, WORDS - 1, WORDS + 1].map(|length| {
        let mut table = unsound.clone();
        table.resize(length, 0);
        table
    });
    for guard in guards() {
        let answer = |first: &[u64], second: &[u64]| (guard.alike)(first, second);
        assert_eq!(answer(&sound, &unsound), 13, "{}", guard.name);
        assert_eq!(answer(&unsound, &sound), 13, "{}", guard.name);
        assert_eq!(answer(&unsound, &unsound), 13, "{}", guard.name);
        for other in &others {
            assert_eq!(answer(&unsound, other), 13, "{} words, {}", other.len(), guard.name);
            assert_eq!(answer(&sound, other), 12, "{} words, {}", other.len(), guard.name);
            for second in [&sound, &unsound, other] {
                assert_eq!(answer(other, second), 12, "{} words, {}", other.len(), guard.name);
            }
        }
    }
}

/// Alike tables answer openings and closings alike, refused ones too, and stay alike.
#[test]
fn alike_tables_in_use() {
    let mut random = Random::new(16);
    let mut different = 0;
    for _ in 0..60 {
        let [first, second] = alike_pair(&mut random);
        different += u64::from(first != second);
        for guard in guards() {
            let mut tables = [first.clone(), second.clone()];
            for _ in 0..40 {
                let [session, mode, object] = [33, 9, 65].map(|count| random.below(count));
                let code = 1 + random.below(2);
                let answers = tables.each_mut().map(|table| (guard.role_request)(table, code, session, object, mode));
                assert_eq!(answers[0], answers[1], "{code} {session} {object} {mode} by the {}", guard.name);
            }
            assert_eq!(compared(guard, &tables[0], &tables[1]), [1, 1], "{}", guard.name);
        }
    }
    assert!(different >= 50, "{different} of 60 pairs are different tables");
}

/// The table of a random history, and one that further requests lead to, each of which leaves it like the first.
fn alike_pair(random: &mut Random) -> [Vec<u64>; 2] {
    let mut run = Run::default();
    let case = requests(random, Layer::Roles);
    case.0.iter().for_each(|step| drop(run.step(&PLAIN, step)));
    let first = run.table;
    let mut second = first.clone();
    let further = requests(random, Layer::Roles).0.into_iter().chain(case.0);
    for step in further {
        if let Step::Role([code, a, b, c]) = step {
            let mut table = second.clone();
            (PLAIN.role_request)(&mut table, code, a, b, c);
            if (PLAIN.alike)(&first, &table) == 1 {
                second = table;
            }
        }
    }
    [first, second]
}

/// Not so of activations: session 0 is one of user 0, who has role 0, or of user 1, who has none.
#[test]
fn activations_of_alike_tables() {
    hold("roles; run; assign 0 0; start 0 0 0", "roles; run; assign 0 0; start 0 1 0", 1);
    expect("roles; run; assign 0 0: 1; start 0 0 0: 1; activate 0 0: 1");
    expect("roles; run; assign 0 0: 1; start 0 1 0: 1; activate 0 0: 0");
}

/// The authorised roles of the 64 users of a sound table.
fn roles_of(table: &[u64]) -> Vec<u64> {
    let juniors = |set: u64| members(set).fold(0, |all, role| all | table[role as usize]);
    table[72..136].iter().map(|assigned| juniors(*assigned)).collect()
}

/// The sections that do not count by themselves.
const OTHERS: [(&str, usize, usize); 7] = [
    ("seniority", 0, 64),
    ("assignments", 72, 136),
    ("grants", 136, 648),
    ("users of sessions", 648, 680),
    ("active roles", 680, 712),
    ("sets", 968, 1032),
    ("links", 1032, MASKS),
];

/// What tells two sound tables apart.
fn kinds_of_pair(one: &[u64], other: &[u64]) -> Vec<String> {
    let differs = |first: usize, end: usize| one[first..end] != other[first..end];
    let [roles, others] = [roles_of(one), roles_of(other)];
    let users: Vec<usize> = (0..64).filter(|user| roles[*user] != others[*user]).collect();
    match (differs(712, 968), differs(MASKS, WORDS), &users[..]) {
        (true, false, []) => vec!["0, openings".into()],
        (false, true, []) => vec!["0, permissions".into()],
        (false, false, [0]) => vec!["0, roles of the first user".into()],
        (false, false, [63]) => vec!["0, roles of the last user".into()],
        (false, false, [_, ..]) => vec!["0, roles".into()],
        (false, false, []) => {
            let differing = OTHERS.iter().filter(|(_, first, end)| differs(*first, *end));
            differing.map(|(name, ..)| format!("1, {name}")).collect()
        }
        _ => vec!["0, more than one".into()],
    }
}

/// Counts what the pairs of a case that are sound come to, and holds the answer to it.
fn count_pairs(case: &Case, counts: &mut Counts) {
    let mut run = Run::default();
    let mut kept = run.table.clone();
    for step in &case.0 {
        let answer = run.step(&PLAIN, step).map_or(12, |reply| reply.answers[0]);
        match step {
            Step::Keep => kept.clone_from(&run.table),
            Step::Alike if answer < 2 => {
                let kinds = kinds_of_pair(&kept, &run.table);
                assert!(kinds.iter().all(|kind| kind.starts_with(&answer.to_string())), "{kinds:?}, {answer}");
                kinds.into_iter().for_each(|kind| counts.add(kind));
            }
            _ => {}
        }
    }
}

/// The random pairs differ in each thing that counts alone, and in each that does not, all of them often.
#[test]
fn every_kind_of_pair() {
    every_kind([13, 20], 17, 1200, |random| vec![likeness(random)], count_pairs);
}
