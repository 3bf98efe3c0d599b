//! Fixed cases on the second implementation and on every guard that is held to it: the rows of the program `cases`
//! (`crates/cases`), whose expected output is the list of answers here too, the points of bench case J, starts with roles, and
//! separation sets.

use crate::common::{after, ask, case, close, expect, play};
use compare::{compare, guards, Case, Guard, Reached, Run, Step, GUARDS, LENT};
use reference::{Label, WORDS};

/// What the program `cases` writes: a row's number, its answer and what it spent.
const EXPECTED: &str = include_str!("../../../crates/cases/stdout");

/// Rows from 100: a role set-up, bench cases A to H, and the sessions of J.
const BENCH: &str = "
    roles; above 5 3; above 3 1; permit 0 9; run
    grant 1 0 9; grant 1 1 9
    start 0 2 0; start 0 2 0
    assign 2 3; activate 0 5; activate 0 1; activate 0 3
    open 0 9 0
    drop 0 1; drop 0 3
    deassign 2 3; assign 2 5; deassign 2 3
    revoke 1 0 9; grant 3 0 9; revoke 1 0 9
    close 5 9 0; open 5 9 0
    start 31 2 0; start 32 2 0";

/// Rows from 200: the state of source 000, section 2.
const SOURCE: &str = "
    roles; above 1 2; above 3 4; permit 0 1; permit 0 2; permit 1 1; permit 1 2; run
    assign 1 1; assign 2 2; assign 3 3
    grant 1 0 1; grant 2 0 2; grant 3 1 2; grant 4 1 1
    start 1 1 0; start 2 1 0; start 3 2 0; start 4 3 0
    activate 1 1; activate 2 1; activate 4 4";

/// The rows after them: what follows from the source's definitions.
const DERIVED: &str = "
    open 1 1 0; open 1 2 0; open 1 1 1; open 3 2 0; open 4 1 1; open 4 2 1
    activate 3 1; drop 3 1; activate 3 2; open 3 2 0; activate 4 3; open 4 2 1
    drop 4 4; drop 4 3; revoke 2 0 2; grant 1 0 2; revoke 2 0 2
    drop 1 1; deassign 1 1; assign 1 2; deassign 1 1; close 1 1 0; drop 1 1; close 1 2 0; drop 1 1
    deassign 1 1; drop 2 1; deassign 1 1
    drop 9 1; open 9 1 0; close 9 1 0; grant 1 2 1";

/// Rows from 300: the scope's listing, and label 32 in requests.
const LISTING: &str = "
    lattice; clear 4 17; label 7 9; label 8 25; run
    start 2 4 17; open 2 7 0; open 2 7 1; open 2 8 1; start 3 4 18; reclear 4 9; end 2; reclear 4 9
    reclear 4 32; start 0 4 32";

/// Rows from 400: a session at level 9 beside labels 9 and 10.
const CONFUSED: &str = "
    lattice; clear 0 9; label 1 9; label 2 10; run
    start 0 0 9; open 0 1 0; open 0 2 1; open 0 1 1";

/// Rows from 501: how does the first label stand to the second?
const PAIRS: [(u64, u64); 15] = [
    (9, 10),
    (10, 9),
    (10, 1),
    (1, 10),
    (9, 1),
    (17, 18),
    (18, 17),
    (31, 0),
    (0, 31),
    (0, 0),
    (1, 9),
    (8, 7),
    (7, 8),
    (15, 7),
    (20, 20),
];

/// Rows from 601: a word less, a word more, and label 32 in each list of a set-up.
fn refused() -> Case {
    Case(vec![
        Step::Length(WORDS - 1),
        Step::Role([4, 0, 0, 0]),
        Step::Length(WORDS + 1),
        Step::Role([4, 0, 0, 0]),
        Step::Length(WORDS),
        Step::LabelSetup { clearances: vec![32; 64], labels: vec![0; 64] },
        Step::LabelSetup { clearances: vec![0; 64], labels: vec![32; 64] },
    ])
}

fn label(number: u64) -> Label {
    Label::of(number).expect("a label is below 32")
}

/// Rows from 700: starts with roles chosen, on the table of the first rows.
const CHOSEN: &str = "
    roles; above 5 3; above 3 1; permit 0 9; run
    assign 2 3; grant 1 0 9
    start 0 2 10; start 1 2 40; start 1 2 18446744073709551615; start 32 2 18446744073709551615
    start 1 2 0; start 1 2 8
    open 0 9 0; open 1 9 0
    start 2 2 8; drop 2 3; open 2 9 0
    start 3 64 0; start 4 3 1; start 4 3 0";

/// Sets over roles 1, 3 and 5 (mask 42) with good and bad bounds, and requests that would and would not break one.
const SETS: &str = "
    roles; above 5 3; above 3 1; permit 0 9; run
    !role 11 16 42 1; !role 11 0 42 1; !role 11 0 42 0; !role 11 0 0 2; !role 11 0 42 4; !role 11 0 42 3
    assign 2 5; assign 2 3; !role 11 0 42 2; !role 11 0 0 0; assign 2 5
    !role 12 0 42 2; start 0 2 32; activate 0 3; activate 0 5; start 1 2 40
    !role 12 15 42 2; !role 12 16 42 2; !role 15 0 0 0";

/// Links made and taken away, and requests that follow them.
const LINKS: &str = "
    roles; above 5 3; above 3 1; permit 0 9; run
    !role 13 5 5 0; !role 13 1 5 0; !role 13 5 1 0; !role 13 5 3 0; !role 14 5 3 0; !role 14 5 3 0; !role 14 4 4 0
    !role 13 5 3 1; !role 13 64 3 0; !role 14 5 64 0
    !role 11 0 130 2; assign 9 7; !role 13 7 1 0; !role 11 0 0 0; !role 13 7 1 0; !role 14 7 1 0
    grant 1 0 9; assign 2 5; start 0 2 32; open 0 9 0
    !role 14 5 1 0; !role 13 5 3 0; !role 14 5 1 0; !role 14 3 1 0; close 0 9 0; !role 14 3 1 0
    activate 0 1; !role 13 3 1 0; activate 0 1; !role 14 3 1 0";

/// Openings that follow what grants, active roles and links give, also to sessions that the request does not name.
const MASKS: &str = "
    roles; above 5 3; above 3 1; permit 0 9; run
    grant 1 0 9; assign 2 5; start 0 2 32; start 1 2 8; open 1 9 0; revoke 1 0 9; close 1 9 0; revoke 1 0 9
    open 0 9 0; open 1 9 0; grant 3 0 9; open 0 9 0; drop 0 5; activate 0 3; drop 0 5
    end 0; open 0 9 0; start 0 2 0; open 0 9 0
    assign 4 7; start 3 4 128; open 3 9 0; !role 13 7 3 0; open 3 9 0; !role 14 7 3 0; close 3 9 0; !role 14 7 3 0; open 3 9 0
    open 1 9 0";

/// Requests on a table, after each of which it is set beside what it was when user 2 was assigned role 5.
const LIKENESS: &str = "
    roles; above 5 3; above 3 1; permit 0 9; run; assign 2 5; !keep
    assign 2 3; !alike; assign 2 1; !alike; assign 63 1; !alike; deassign 63 1; !alike; assign 0 0; !alike; deassign 0 0; !alike
    deassign 2 5; !alike; assign 2 5; !alike
    !role 13 5 4 0; !alike; !role 14 5 4 0; !alike; !role 13 7 5 0; !alike; !role 13 5 1 0; !alike
    !role 11 0 138 3; !alike; !role 12 15 130 2; !alike
    start 0 7 0; !alike; grant 1 0 9; !alike; start 1 2 32; !alike; end 1; !alike; start 31 2 2; !alike";

/// What likeness answers in a case, in either order of the tables.
fn likeness_rows(case: &Case, guard: &Guard) -> Vec<[u64; 2]> {
    let mut run = Run::default();
    let mut rows = Vec::new();
    for step in &case.0 {
        match (step, run.step(guard, step)) {
            (Step::Alike, Some(reply)) => rows.push([reply.answers[0], reply.answers[1]]),
            (Step::Keep, _) => {}
            (_, reply) => assert_eq!(reply.map(|reply| reply.answers[0]), Some(1), "{step:?} by the {}", guard.name),
        }
    }
    rows
}

/// Rows as the program writes them.
fn numbered(first: u64, rows: Vec<[u64; 2]>) -> impl Iterator<Item = String> {
    (first..).zip(rows).map(|(number, [answer, spent])| format!("{number}\t{answer}\t{spent}"))
}

#[test]
fn rows_of_the_program_cases() {
    let source = [SOURCE, DERIVED].join("\n");
    let played = [(100, case(BENCH)), (200, case(&source)), (300, case(LISTING)), (400, case(CONFUSED))];
    let chosen = [(700, case(CHOSEN)), (800, case(SETS)), (900, case(LINKS)), (950, case(MASKS))];
    let likeness = case(LIKENESS);
    for guard in guards() {
        let mut rows: Vec<String> = Vec::new();
        for (first, case) in &played {
            rows.extend(numbered(*first, play(case, guard)));
        }
        let compared = PAIRS.map(|(a, b)| [(guard.compare_labels)(a, b), 0]);
        rows.extend(numbered(501, compared.to_vec()));
        rows.extend(numbered(601, play(&refused(), guard)));
        for (first, case) in &chosen {
            rows.extend(numbered(*first, play(case, guard)));
        }
        rows.extend(numbered(981, likeness_rows(&likeness, guard)));
        for (row, expected) in rows.iter().zip(EXPECTED.lines()) {
            assert_eq!(row, expected, "{}", guard.name);
        }
        assert_eq!(rows.len(), EXPECTED.lines().count(), "{}", guard.name);
    }
    for (_, case) in played.iter().chain(&chosen).chain(&[(981, likeness)]) {
        assert_eq!(compare(case, GUARDS, &mut Reached::default()), Ok(()));
    }
}

/// The authorised roles of users and the effective permissions of sessions that source 000 prints, and those of a user and
/// a session that it does not name.
#[test]
fn sets_of_the_source() {
    for guard in guards() {
        let mut run = after(guard, SOURCE);
        let mut read = |step| run.step(guard, &step).map(|reply| (reply.answers, reply.words));
        for (user, roles) in [(1, 6), (2, 4), (3, 24), (4, 0)] {
            assert_eq!(read(Step::Authorised(user)), Some((vec![1], vec![roles])), "user {user}, {}", guard.name);
        }
        for (session, reads, writes) in [(1, 6, 0), (2, 6, 0), (3, 0, 0), (4, 0, 2), (5, 0, 0)] {
            let masks = vec![reads, writes, 0, 0, 0, 0, 0, 0];
            assert_eq!(read(Step::Permissions(session)), Some((vec![1], masks)), "session {session}, {}", guard.name);
        }
    }
}

#[test]
fn case_j_session_32() {
    expect(
        "roles; permit 0 0; run
         start 31 0 0: 1; start 32 0 0: 16
         activate 31 0: 0; activate 32 0: 16
         open 31 0 0: 0; open 32 0 0: 16
         drop 31 0: 1; drop 32 0: 16
         close 31 0 0: 1; close 32 0 0: 16
         !permissions 31: 1; !permissions 32: 16
         end 31: 1; end 32: 16",
    );
    expect(
        "lattice; run
         start 31 0 0: 1; start 32 0 0: 16
         open 31 0 0: 1; open 32 0 0: 16
         close 31 0 0: 1; close 32 0 0: 16
         !permissions 31: 1; !permissions 32: 16
         end 31: 1; end 32: 16",
    );
}

#[test]
fn case_j_label_32() {
    expect("lattice; run; reclear 0 31: 1; reclear 0 32: 16; start 0 0 32: 16; start 0 0 31: 1");
    for guard in guards() {
        for place in [0, 63] {
            let list = |label| {
                let mut list = vec![0; 64];
                list[place] = label;
                list
            };
            let set_up = |clearance, label| Step::LabelSetup { clearances: list(clearance), labels: list(label) };
            let case = Case(vec![set_up(31, 31), set_up(32, 31), set_up(31, 32), set_up(31, 31)]);
            assert_eq!(play(&case, guard), [[1, 0], [19, 0], [19, 0], [1, 0]], "place {place}, {}", guard.name);
        }
    }
}

#[test]
fn case_j_code_15_and_set_16() {
    expect(
        "roles; run
         !role 12 15 3 2: 1; !role 12 16 3 2: 16; !role 12 16 0 0: 16; !role 12 18446744073709551615 3 2: 16
         !role 11 15 3 2: 1; !role 11 16 3 2: 16; !role 11 16 0 0: 16; !role 11 18446744073709551615 3 2: 16
         !role 13 63 0 0: 1; !role 13 64 0 0: 16; !role 13 0 64 0: 16; !role 13 63 0 1: 16
         !role 14 63 0 0: 1; !role 14 64 0 0: 16; !role 14 0 64 0: 16; !role 14 63 0 18446744073709551615: 16
         !role 15 63 0 0: 15; !role 15 16 3 1: 15; !role 15 64 64 1: 15; !role 0 0 0 0: 15",
    );
}

/// Every call that takes a table, with its answers (and spent) on as many words as a table has and on another number. Likeness
/// answers for the table as the second and as the first.
fn calls() -> [(Step, Vec<u64>, Vec<u64>); 8] {
    [
        (Step::Role([2, 0, 0, 0]), vec![1], vec![12]),
        (Step::Label([2, 0, 0, 0]), vec![1, 1], vec![12, 0]),
        (Step::Alike, vec![1, 1], vec![12, 12]),
        (Step::Permissions(0), vec![1], vec![12]),
        (Step::Authorised(0), vec![1], vec![12]),
        (Step::Tallied([3, 0, 0]), vec![1], vec![12]),
        (Step::RoleSetup { juniors: vec![0; 64], permissions: vec![0; 8] }, vec![1], vec![12]),
        (Step::LabelSetup { clearances: vec![0; 64], labels: vec![0; 64] }, vec![1], vec![12]),
    ]
}

#[test]
fn case_j_other_lengths() {
    for guard in guards() {
        for words in [0, 968, 1032, 1096, 1351, WORDS, 1353] {
            let mut run = after(guard, "lattice; clear 5 31; run; start 3 5 9");
            run.step(guard, &Step::Keep);
            run.step(guard, &Step::Length(words));
            for (step, whole, other) in calls() {
                let (table, tally) = (run.table.clone(), run.tally);
                let reply = run.step(guard, &step).expect("a guard takes part");
                let expected = if words == WORDS { whole } else { other };
                assert_eq!(reply.answers, expected, "{step:?} on {words} words by the {}", guard.name);
                let kept = run.table == table && run.tally == tally && reply.words.iter().all(|word| *word == LENT);
                assert!(kept || words == WORDS, "{step:?} on {words} words is refused and writes");
            }
        }
    }
}

/// Makes a role start, which with yes writes the session's user and roles, and its masks.
fn start(run: &mut Run, guard: &Guard, [session, user, roles]: [u64; 3], answer: u64) {
    let at = session as usize;
    ask(run, guard, [3, session, user, roles], answer, &[(648 + at, user + 1), (680 + at, roles)]);
}

/// Role 5 above 3, 3 above 1; user 2 is assigned role 3, which reads column 9 through role 1.
const ABOVE: &str = "roles; above 5 3; above 3 1; permit 0 9; run; grant 1 0 9; assign 2 3";

#[test]
fn starts_with_roles() {
    for guard in guards() {
        let mut run = after(guard, ABOVE);
        for (arguments, answer) in [
            ([0, 2, 1 << 3 | 1 << 1], 1), // authorised is asked, not assigned
            ([1, 2, 1 << 5 | 1 << 3], 0), // all of them or none
            ([1, 2, 1 << 5], 0),
            ([1, 3, 1 << 1], 0),
            ([1, 2, u64::MAX], 0), // in range
            ([32, 2, u64::MAX], 16),
            ([1, 64, u64::MAX], 16),
            ([1, 2, 0], 1),
            ([1, 2, 1 << 3], 0), // no longer idle, and no role is added
            ([1, 2, 0], 0),
            ([2, 2, 1 << 3], 1), // role 1 is not active there
            ([31, 2, 1 << 1], 1),
            ([30, 63, 0], 1),
        ] {
            start(&mut run, guard, arguments, answer);
        }
    }
}

/// A session that holds something open keeps its user, roles and openings.
#[test]
fn starts_of_busy_sessions() {
    for guard in guards() {
        let mut run = after(guard, &format!("{ABOVE}; assign 4 5; start 0 2 8; open 0 9 0"));
        for (user, roles) in [(2, 8), (2, 2), (2, 0), (4, 32), (4, 0), (4, u64::MAX)] {
            start(&mut run, guard, [0, user, roles], 0);
        }
    }
}

/// All 64 roles, by a chain under one that is assigned and by assignment of each, and all but one.
#[test]
fn starts_with_all_roles() {
    let chain: String = (1..64).map(|role| format!("above {role} {}; ", role - 1)).collect();
    let each: String = (0..64).map(|role| format!("; assign 7 {role}")).collect();
    for guard in guards() {
        for text in [format!("roles; {chain}run; assign 7 63"), format!("roles; run{each}")] {
            let mut run = after(guard, &text);
            start(&mut run, guard, [0, 7, u64::MAX], 1);
            start(&mut run, guard, [0, 7, u64::MAX], 0);
            start(&mut run, guard, [1, 7, 1 << 63], 1);
        }
        let mut run = after(guard, &format!("roles; {chain}run; assign 7 62"));
        start(&mut run, guard, [0, 7, u64::MAX], 0);
        start(&mut run, guard, [0, 7, u64::MAX >> 1], 1);
    }
}

/// A damaged table is refused before the code and the arguments are looked at, also where a start would mend it.
#[test]
fn starts_on_damaged_tables() {
    // a role not its own junior; a grant that is no permission; a user too many; an idle session with a role, an opening
    for (at, word) in [(7, 0), (145, 1 << 5), (649, 65), (681, 8), (720, 1 << 9)] {
        for guard in guards() {
            let mut run = after(guard, "roles; above 5 3; above 3 1; run; assign 2 3");
            run.table[at] = word;
            for arguments in [[1, 2, 8], [1, 2, 0], [1, 2, u64::MAX], [32, 64, u64::MAX]] {
                start(&mut run, guard, arguments, 13);
            }
            run.table.push(0);
            start(&mut run, guard, [1, 2, 8], 12);
        }
    }
}

/// A label start answers and writes as the role start with its level's two roles, and spends 1 with either answer.
#[test]
fn a_label_start_is_one_role_start() {
    let pairs = || [0, 9, 17, 31].into_iter().flat_map(|clearance| (0..32).map(move |level| (clearance, level)));
    for guard in guards() {
        for (clearance, level) in pairs() {
            let text = format!("lattice; clear 4 {clearance}; run");
            let (mut by_label, mut by_roles) = (after(guard, &text), after(guard, &text));
            let cleared = label(clearance).stands(label(level)).equal_or_above();
            // the same again is always no
            for answer in [u64::from(cleared), 0] {
                let reply = by_label.step(guard, &Step::Label([3, 2, 4, level])).map(|reply| reply.answers);
                assert_eq!(reply, Some(vec![answer, 1]), "clearance {clearance}, level {level}, {}", guard.name);
                start(&mut by_roles, guard, [2, 4, 1 << level | 1 << (32 + level)], answer);
                assert!(by_label.table == by_roles.table, "clearance {clearance}, level {level}, {}", guard.name);
            }
        }
    }
}

/// The mask of roles 1, 3 and 5 is 42, of 3 and 5 it is 40, of 5 it is 32.
#[test]
fn separation_sets() {
    expect(
        "roles; above 5 3; above 3 1; run
         !role 11 16 42 1: 16; !role 11 0 42 1: 21; !role 11 0 42 0: 21; !role 11 0 0 2: 21; !role 11 0 42 4: 21
         !role 11 0 42 3: 1; assign 2 5: 0; assign 2 3: 1; !role 11 0 42 2: 0; assign 2 5: 0
         !role 11 0 0 0: 1; assign 2 5: 1
         !role 12 0 42 2: 1; start 0 2 32: 1; activate 0 3: 0; activate 0 5: 1; start 1 2 40: 0; start 1 2 8: 1
         !role 12 0 42 3: 1; activate 0 3: 1; activate 0 1: 0; drop 0 5: 1; activate 0 1: 1; activate 0 5: 0",
    );
}

/// A bound is a whole word, and all 64 roles may be in a set.
#[test]
fn large_pairs() {
    let each: String = (0..63).map(|role| format!("; assign 63 {role}: 1")).collect();
    expect(&format!(
        "roles; run
         !role 11 0 {all} 65: 21; !role 11 0 {all} {all}: 21; !role 11 0 {all} 4294967298: 21; !role 11 0 {all} 1: 21
         !role 11 0 {all} 64: 1{each}; assign 63 63: 0; assign 62 63: 1; !role 11 1 {all} 63: 0; !role 12 0 {all} 2: 1
         start 31 63 9223372036854775807: 0; start 31 63 4611686018427387904: 1; activate 31 0: 0",
        all = u64::MAX
    ));
}

/// What is there already may be added again, also where a role more would break a set.
#[test]
fn added_again_beside_sets() {
    expect(
        "roles; above 5 3; above 3 1; permit 0 9; run
         assign 2 3: 1; assign 2 2: 1; start 0 2 8: 1; grant 1 0 9: 1; open 0 9 0: 1
         !role 11 4 46 4: 1; !role 11 4 46 4: 1; !role 12 4 46 2: 1; !role 12 4 46 2: 1
         assign 2 3: 1; assign 2 1: 1; assign 2 5: 0; activate 0 3: 1; activate 0 2: 0; open 0 9 0: 1
         deassign 2 2: 1; assign 2 5: 1; assign 2 2: 0; end 0: 1; start 0 2 32: 1; end 0: 1; start 0 2 4: 0",
    );
}

/// Replaces a set, which with yes writes the set's mask and bound.
fn replace(run: &mut Run, guard: &Guard, [code, set, mask, bound]: [u64; 4], answer: u64) {
    let at = if code == 11 { 968 } else { 1000 } + 2 * set as usize;
    ask(run, guard, [code, set, mask, bound], answer, &[(at, mask), (at + 1, bound)]);
}

/// User 2 has roles 3 and 1, without a session; session 0 of user 4 has roles 5 and 3 active.
const SEPARATE: &str = "roles; above 5 3; above 3 1; run; assign 2 3; assign 4 5; start 0 4 40";

#[test]
fn words_of_sets() {
    for guard in guards() {
        let mut run = after(guard, SEPARATE);
        for (asked, answer) in [
            ([11, 0, 42, 3], 0), // user 4 has all three
            ([11, 0, 1 << 7 | 42, 4], 1),
            ([11, 0, 1 << 7 | 10, 2], 0), // user 2 has two of them
            ([11, 0, 1 << 7 | 42, 5], 21),
            ([11, 0, 1 << 7 | 2, 2], 1),
            ([11, 15, u64::MAX, 64], 1),
            ([12, 0, 40, 2], 0), // both are active
            ([12, 0, 42, 2], 0),
            ([12, 0, 42, 3], 1), // role 1, a junior of an active one, does not count
            ([12, 15, 34, 2], 1),
            ([12, 15, 0, 0], 1),
            ([12, 15, 0, 0], 1),
            ([11, 0, 0, 0], 1),
        ] {
            replace(&mut run, guard, asked, answer);
        }
    }
}

/// A pair of error 21 and a set that does not hold make a table unsound, whatever is asked of it.
#[test]
fn damaged_sets() {
    let pairs: [(usize, u64, u64); 12] = [
        (968, 42, 0),
        (968, 42, 1),
        (968, 42, 4),
        (998, 0, 1),
        (1030, 0, 2),
        (1000, 42, u64::MAX),
        (1030, 1 << 63, 2),
        (968, 10, 2), // users 2 and 4
        (998, 42, 3), // user 4 alone
        (980, 1 << 7 | 42, 3),
        (1000, 40, 2), // session 0
        (1030, 42, 2),
    ];
    for guard in guards() {
        for (at, mask, bound) in pairs {
            let mut run = after(guard, SEPARATE);
            (run.table[at], run.table[at + 1]) = (mask, bound);
            for asked in [[11, 0, 0, 0], [12, 16, 42, 1], [15, 0, 0, 0], [2, 0, 0, 0], [4, 0, 0, 0]] {
                replace(&mut run, guard, asked, 13);
            }
        }
    }
}

/// Every one of the 64 users counts, with a session or without, and every one of the 32 sessions.
#[test]
fn sets_of_every_user_and_session() {
    let user = |user: u64| (11, 969, format!("roles; above 5 3; above 3 1; run; assign {user} 5"));
    let session =
        |session: u64| (12, 1001, format!("roles; above 5 3; above 3 1; run; assign 2 5; start {session} 2 42"));
    for guard in guards() {
        for (code, bound_at, text) in (0..64).map(user).chain((0..32).map(session)) {
            let mut run = after(guard, &text);
            replace(&mut run, guard, [code, 0, 42, 3], 0);
            replace(&mut run, guard, [code, 0, 1 << 7 | 42, 4], 1);
            run.table[bound_at] = 3;
            replace(&mut run, guard, [code, 0, 0, 0], 13);
        }
    }
}

/// A label table with a set is the image of no machine state, and is one again without it.
#[test]
fn sets_on_label_tables() {
    for guard in guards() {
        for (code, set) in [(11, 0), (11, 15), (12, 0), (12, 15)] {
            let mut run = after(guard, "lattice; clear 5 17; run; start 2 5 17");
            // every user has all writing roles, and no session has two of them; nobody reads both 17 and 18
            replace(&mut run, guard, [code, set, 3 << 32, 2], u64::from(code == 12));
            replace(&mut run, guard, [code, set, 3 << 17, 2], 1);
            close(&mut run, guard, [14, 0]);
            replace(&mut run, guard, [code, set, 0, 0], 1);
            close(&mut run, guard, [1, 1]);
        }
    }
}
