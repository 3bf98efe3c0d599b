//! Openings that lend a tally, and statements: fixed counts, rates and refusals on every guard, counts and charges of random
//! histories held to what the test itself has counted, and what the random cases come to: everything that they can, each often.

use crate::common::{after, close, every_kind, Counts};
use compare::{guards, tallies, Case, Guard, Random, Run, Step, LENT, PLAIN, WORDS};

/// Role 1 is granted (0, 9), and (0, 8) to nobody; user 2 has session 0 with role 1 active. Session 5 is idle.
const COLUMN: &str = "roles; permit 0 8; permit 0 9; run; grant 1 0 9; assign 2 1; start 0 2 2";

/// The largest count and the largest rate.
const FULL: u32 = 4_294_967_295;
const LARGEST_RATE: u64 = 1_000_000;

/// The user of a session of a table; none where it is idle or out of range, or the table is short.
fn user_of(table: &[u64], session: u64) -> Option<usize> {
    let word = table.get(648 + session.min(32) as usize).filter(|_| session < 32)?;
    (*word as usize).checked_sub(1)
}

/// Whether a session holds an object open in a mode.
fn is_held(table: &[u64], [session, object, mode]: [u64; 3]) -> bool {
    table[712 + 8 * session as usize + mode as usize] >> object & 1 == 1
}

/// Makes an opening that lends the tally, and holds the answer, every word and every count to what is expected: yes makes the
/// opening and advances the count of the session's user, and all else leaves both.
fn open(run: &mut Run, guard: &Guard, asked: [u64; 3], answer: u64) {
    let (mut table, mut tally) = (run.table.clone(), run.tally);
    if answer == 1 {
        let [session, object, mode] = asked;
        table[712 + 8 * session as usize + mode as usize] |= 1 << object;
        tally[user_of(&table, session).expect("the session is in use")] += 1;
    }
    let reply = run.step(guard, &Step::Tallied(asked)).map(|reply| reply.answers);
    assert_eq!(reply, Some(vec![answer]), "{asked:?} by the {}", guard.name);
    assert!(run.table == table, "{asked:?} by the {} writes other words", guard.name);
    assert_eq!(run.tally, tally, "{asked:?} by the {}", guard.name);
}

/// A run on the table of the column with one count, that of user 2.
fn with_count(guard: &Guard, count: u32) -> Run {
    let mut run = after(guard, COLUMN);
    run.tally[2] = count;
    run
}

/// Every yes counts, one already held included, and nothing else does.
#[test]
fn openings_answered_yes() {
    for guard in guards() {
        let mut run = with_count(guard, 0);
        open(&mut run, guard, [0, 9, 0], 1);
        assert_eq!(run.tally[2], 1);
        open(&mut run, guard, [0, 9, 0], 1);
        // the same opening without the tally, and a label opening on a table that is no image
        assert_eq!(run.step(guard, &Step::Role([1, 0, 9, 0])).map(|reply| reply.answers), Some(vec![1]));
        assert_eq!(run.step(guard, &Step::Label([1, 0, 9, 0])).map(|reply| reply.answers), Some(vec![14, 0]));
        assert_eq!(run.tally[2], 2, "{}", guard.name);
        for (asked, answer) in [
            ([0, 8, 0], 0),
            ([0, 9, 1], 0),
            ([5, 9, 0], 0),
            ([31, 63, 7], 0),
            ([32, 9, 0], 16),
            ([0, 64, 0], 16),
            ([0, 9, 8], 16),
            ([u64::MAX, 9, 0], 16),
            ([1 << 32, 9, 0], 16),
            ([0, 1 << 32 | 9, 0], 16),
            ([0, 9, 1 << 32], 16),
        ] {
            open(&mut run, guard, asked, answer);
        }
        // closed and opened again
        assert_eq!(run.step(guard, &Step::Role([2, 0, 9, 0])).map(|reply| reply.answers), Some(vec![1]));
        open(&mut run, guard, [0, 9, 0], 1);
        assert_eq!(run.tally[2], 3);
        assert_eq!(run.tally.iter().sum::<u32>(), 3, "{}", guard.name);
    }
}

/// A full count is refused in place of a yes, of an opening already held too, and a count below it is not.
#[test]
fn full_counts() {
    for guard in guards() {
        let mut run = with_count(guard, FULL);
        open(&mut run, guard, [0, 9, 0], 23);
        assert_eq!(run.step(guard, &Step::Role([1, 0, 9, 0])).map(|reply| reply.answers), Some(vec![1]));
        open(&mut run, guard, [0, 9, 0], 23);
        let mut run = with_count(guard, FULL - 1);
        open(&mut run, guard, [0, 9, 0], 1);
        assert_eq!(run.tally[2], FULL);
        open(&mut run, guard, [0, 9, 0], 23);
        let mut run = with_count(guard, FULL - 2);
        for answer in [1, 1, 23, 23] {
            open(&mut run, guard, [0, 9, 0], answer);
        }
        // those of all other users
        let mut run = with_count(guard, 0);
        run.tally = [FULL; 64];
        run.tally[2] = 7;
        open(&mut run, guard, [0, 9, 0], 1);
        open(&mut run, guard, [0, 9, 0], 1);
        assert_eq!(run.tally[2], 9);
    }
}

/// With every count full: what is not answered yes is answered and refused as before.
#[test]
fn full_counts_come_last() {
    for guard in guards() {
        let mut run = after(guard, COLUMN);
        run.tally = [FULL; 64];
        for (asked, answer) in
            [([0, 8, 0], 0), ([5, 9, 0], 0), ([32, 9, 0], 16), ([0, 64, 0], 16), ([0, 9, 8], 16), ([0, 9, 0], 23)]
        {
            open(&mut run, guard, asked, answer);
        }
        for words in [0, 1, 968, 1096, WORDS - 1, WORDS + 1] {
            let mut run = after(guard, COLUMN);
            run.tally = [FULL; 64];
            run.table.resize(words, 0);
            open(&mut run, guard, [0, 9, 0], 12);
            open(&mut run, guard, [32, 64, 8], 12);
        }
        // a role not its own junior, a grant that is no permission, a user too many, masks with a bit too few and too many
        for (at, word) in [(7, 0), (136, 2), (648, 65), (1096, 0), (WORDS - 1, 1)] {
            let mut run = after(guard, COLUMN);
            run.tally = [FULL; 64];
            run.table[at] = word;
            open(&mut run, guard, [0, 9, 0], 13);
            open(&mut run, guard, [32, 64, 8], 13);
        }
    }
}

/// Every one of the 64 users has a count, by whichever of the 32 sessions, two of one user counting together.
#[test]
fn every_user_and_session() {
    for guard in guards() {
        for user in 0..64 {
            let (one, other) = (user % 32, (user + 5) % 32);
            let lines = format!("roles; permit 7 63; run; grant 63 7 63; assign {user} 63");
            let starts = format!("start {one} {user} {role}; start {other} {user} {role}", role = 1u64 << 63);
            let mut run = after(guard, &format!("{lines}; {starts}"));
            open(&mut run, guard, [one, 63, 7], 1);
            open(&mut run, guard, [other, 63, 7], 1);
            assert_eq!(run.tally[user as usize], 2, "user {user} by the {}", guard.name);
            // a session that passes to another user counts for that one
            let next = (user + 1) % 64;
            for asked in [[7, next, 63, 0], [4, one, 0, 0], [3, one, next, 1 << 63]] {
                assert_eq!(run.step(guard, &Step::Role(asked)).map(|reply| reply.answers), Some(vec![1]));
            }
            open(&mut run, guard, [one, 63, 7], 1);
            assert_eq!([run.tally[user as usize], run.tally[next as usize]], [2, 1], "{user} by the {}", guard.name);
        }
    }
}

/// On a label table the role opening counts, and the label opening does not.
#[test]
fn label_tables() {
    for guard in guards() {
        let mut run = after(guard, "lattice; clear 4 17; label 7 9; label 8 25; run; start 2 4 17; open 2 7 0");
        open(&mut run, guard, [2, 7, 0], 1);
        open(&mut run, guard, [2, 8, 1], 1);
        open(&mut run, guard, [2, 8, 0], 0);
        open(&mut run, guard, [2, 7, 1], 0);
        for mode in [0, 1] {
            let reply = run.step(guard, &Step::Label([1, 2, 7 + mode, mode])).map(|reply| reply.answers);
            assert_eq!(reply, Some(vec![1, 1]), "{}", guard.name);
        }
        assert_eq!(run.tally[4], 2, "{}", guard.name);
        close(&mut run, guard, [1, 1]);
    }
}

/// Calls that are lent no tally, and the statement, leave the one that was lent before them.
#[test]
fn every_other_call() {
    let roles = (1..=14).map(|code| Step::Role([code, 0, if code == 1 { 9 } else { 1 }, 0]));
    let labels = (1..=5).map(|code| Step::Label([code, 0, 0, 0]));
    let set_ups = [
        Step::RoleSetup { juniors: vec![0; 64], permissions: vec![0; 8] },
        Step::LabelSetup { clearances: vec![0; 64], labels: vec![0; 64] },
    ];
    let others =
        [Step::Alike, Step::Permissions(0), Step::Authorised(2), Step::Statement(3), Step::Statement(u64::MAX)];
    let steps: Vec<Step> = roles.chain(labels.clone()).chain(others).chain(set_ups).chain(labels).collect();
    for guard in guards() {
        let mut run = with_count(guard, 0);
        open(&mut run, guard, [0, 9, 0], 1);
        let tally = run.tally;
        for step in &steps {
            run.step(guard, step);
            assert_eq!(run.tally, tally, "{step:?} by the {}", guard.name);
        }
    }
}

/// A statement: its answer, the charges and the total; what is lent for them is full of other words before.
fn stated(guard: &Guard, counts: &[u32; 64], rate: u64) -> (u64, [u64; 64], u64) {
    let (mut charges, mut total, before) = ([LENT; 64], LENT, *counts);
    let answer = (guard.statement)(counts, rate, &mut charges, &mut total);
    assert_eq!(*counts, before, "a statement by the {} changes the tally", guard.name);
    (answer, charges, total)
}

/// Known charges, each for the first user, for the last and for one between, who have openings alone, and for all together.
#[test]
fn known_charges() {
    for (count, rate, charge) in [
        (1500, 3, 5), // 4.5
        (499, 1, 0),
        (500, 1, 1),
        (501, 1, 1),
        (1499, 1, 1),
        (1500, 1, 2),
        (2500, 1, 3),
        (1500, 5, 8), // 7.5
        (1, 499, 0),
        (1, 500, 1),
        (1, 999_999, 1000),
        (1, LARGEST_RATE, 1000),
        (0, LARGEST_RATE, 0),
        (FULL, 0, 0),
        (FULL, 1, 4_294_967),
        (FULL, 1000, 4_294_967_295),
        (FULL - 1, LARGEST_RATE, 4_294_967_294_000),
        (FULL, LARGEST_RATE, 4_294_967_295_000),
        (FULL, 500, 2_147_483_648), // 2,147,483,647.5
    ] {
        for guard in guards() {
            for user in [0, 2, 63] {
                let (mut counts, mut charges) = ([0; 64], [0; 64]);
                counts[user] = count;
                charges[user] = charge;
                assert_eq!(stated(guard, &counts, rate), (1, charges, charge), "{count} at {rate}, {}", guard.name);
            }
            let all = (1, [charge; 64], 64 * charge);
            assert_eq!(stated(guard, &[count; 64], rate), all, "{count} at {rate}, {}", guard.name);
        }
    }
}

/// Two users with 500 openings at 1 are charged 1 each and 2 together, not 1 for 1,000.
#[test]
fn a_total_is_a_sum_of_charges() {
    for guard in guards() {
        let (mut counts, mut charges) = ([0; 64], [0; 64]);
        (counts[2], counts[63]) = (500, 500);
        (charges[2], charges[63]) = (1, 1);
        assert_eq!(stated(guard, &counts, 1), (1, charges, 2), "{}", guard.name);
        assert_eq!(stated(guard, &[499; 64], 1), (1, [0; 64], 0), "{}", guard.name);
    }
}

/// The largest rate is good; one over it is refused, and charges and total stay what they were.
#[test]
fn rates_over_the_largest() {
    let over = [LARGEST_RATE + 1, 2 * LARGEST_RATE, 1 << 32, 1 << 32 | 3, 1 << 63, u64::MAX];
    for guard in guards() {
        for counts in [[0; 64], [1500; 64], [FULL; 64]] {
            assert_eq!(stated(guard, &counts, LARGEST_RATE).0, 1, "{}", guard.name);
            for rate in over {
                assert_eq!(stated(guard, &counts, rate), (22, [LENT; 64], LENT), "rate {rate}, {}", guard.name);
            }
        }
    }
}

/// Holds a statement to the rule, over whole numbers: twice what a thousand times the charge differs from count times rate is at
/// most 1,000, and of two such charges the upper one is taken; and the total to the sum of the charges.
fn check_charges(guard: &Guard, counts: &[u32; 64], rate: u64) {
    let (answer, charges, total) = stated(guard, counts, rate);
    assert_eq!((answer, total), (1, charges.iter().sum()), "rate {rate}, {}", guard.name);
    for (count, charge) in counts.iter().zip(charges) {
        let exact = u64::from(*count) * rate;
        let near = |charge: u64| 2 * exact.abs_diff(1000 * charge) <= 1000;
        assert!(near(charge) && !near(charge + 1), "{count} at {rate} is charged {charge} by the {}", guard.name);
    }
}

#[test]
fn charges_by_the_rule() {
    let mut random = Random::new(19);
    for round in 0..300 {
        let mut edge = |any: u64, edges: [u64; 6]| if random.chance(50) { any } else { random.one(&edges) };
        let rate = edge(round * 3337, [0, 1, 3, 500, LARGEST_RATE - 1, LARGEST_RATE]);
        let full = u64::from(FULL);
        let counts = std::array::from_fn(|_| edge(0, [499, 500, 501, 1500, full - 1, full]) as u32);
        let anything = std::array::from_fn(|_| random.word() as u32);
        for guard in guards() {
            check_charges(guard, &counts, rate);
            check_charges(guard, &anything, rate);
        }
    }
}

/// A history from a zero tally: several random cases on, each from a table of its own, without counts that are put.
fn history(random: &mut Random) -> Vec<Step> {
    let cases = (0..20).flat_map(|_| tallies(random).0);
    cases.filter(|step| !matches!(step, Step::Count(..))).collect()
}

/// After every step of random histories, with any calls between, each count is the number of that user's openings with the tally
/// answered yes, counted here by the user that the table names; and the charges are those of these numbers.
#[test]
fn counts_are_openings_answered_yes() {
    let mut random = Random::new(20);
    for _ in 0..4 {
        let (steps, rate) = (history(&mut random), random.below(LARGEST_RATE + 1));
        for guard in guards() {
            let (mut run, mut counted) = (Run::default(), [0; 64]);
            for step in &steps {
                let before = run.table.clone();
                let reply = run.step(guard, step);
                if let (Step::Tallied([session, ..]), Some(1)) = (step, reply.map(|reply| reply.answers[0])) {
                    counted[user_of(&before, *session).expect("the session is in use")] += 1;
                }
                assert_eq!(run.tally, counted, "{step:?} by the {}", guard.name);
            }
            let openings: u32 = counted.iter().sum();
            assert!(openings > 100 && counted.iter().filter(|count| **count > 0).count() > 5, "{counted:?}");
            check_charges(guard, &counted, rate);
        }
    }
}

/// What an opening with the tally comes to, by the table and the tally before it.
fn kind_of_opening(table: &[u64], tally: &[u32; 64], asked: [u64; 3], answer: u64) -> &'static str {
    let count = user_of(table, asked[0]).and_then(|user| tally.get(user));
    let others = tally.iter().filter(|count| **count == FULL).count() > usize::from(count == Some(&FULL));
    match (answer, count) {
        (0, None) => "no, idle",
        (0, Some(&FULL)) => "no at a full count",
        (0, _) => "no",
        (1, Some(count)) if *count == FULL - 1 => "yes, and the count is full",
        (1, _) if others => "yes beside a full count",
        (1, _) if is_held(table, asked) => "yes, held already",
        (1, _) => "yes",
        (23, _) if is_held(table, asked) => "23, held already",
        (23, _) => "23",
        (12, _) => "12",
        (13, Some(&FULL)) => "13 at a full count",
        (13, _) => "13",
        (16, Some(&FULL)) => "16 at a full count",
        _ => "16",
    }
}

/// What a statement comes to: halves, and totals that differ from the sum of the counts charged once.
fn kinds_of_statement(tally: &[u32; 64], rate: u64, answer: u64) -> Vec<&'static str> {
    if answer == 22 {
        return vec!["22"];
    }
    let exact = tally.map(|count| u64::from(count) * rate);
    let charges: u64 = exact.iter().map(|exact| (exact + 500) / 1000).sum();
    let once = (exact.iter().sum::<u64>() + 500) / 1000;
    let kinds = [
        (rate == LARGEST_RATE, "the largest rate"),
        (exact.iter().any(|exact| exact % 1000 == 500), "half a cent"),
        (charges != once, "a total that one charge for all is not"),
        (exact.iter().any(|exact| *exact >= 1 << 32), "more than 32 bits"),
    ];
    kinds.into_iter().filter_map(|(is, kind)| is.then_some(kind)).collect()
}

/// Counts what the openings with the tally and the statements of a case come to.
fn count(case: &Case, counts: &mut Counts) {
    let mut run = Run::default();
    for step in &case.0 {
        let (table, tally) = (run.table.clone(), run.tally);
        let answer = run.step(&PLAIN, step).map_or(0, |reply| reply.answers[0]);
        match step {
            Step::Tallied(asked) => counts.add(kind_of_opening(&table, &tally, *asked, answer)),
            Step::Statement(rate) => {
                kinds_of_statement(&tally, *rate, answer).into_iter().for_each(|kind| counts.add(kind));
            }
            _ => {}
        }
    }
}

#[test]
fn every_kind_of_opening_and_statement() {
    every_kind([19, 20], 21, 400, |random| vec![tallies(random)], count);
}

/// The tally and the statement of the Rust crate, saved and restored, beside the guard's calls by numbers.
#[cfg(feature = "proved")]
#[test]
fn tallies_of_the_crate() {
    use compare::REFERENCE;
    use sheetguard::{open_tallied, Answer, Refusal, Statement, Tally};

    let mut random = Random::new(22);
    let mut run = Run::default();
    let mut table = run.table.clone();
    for step in history(&mut random) {
        if let Step::Tallied([session, object, mode]) = step {
            table.clone_from(&run.table);
            let mut tally = Tally::from(run.tally);
            let answer = open_tallied(&mut table, &mut tally, session, object, mode);
            let number = run.step(&REFERENCE, &step).map(|reply| reply.answers[0]);
            let expected = match number {
                Some(0) => Ok(Answer::No),
                Some(1) => Ok(Answer::Yes),
                number => Err(number.and_then(Refusal::of).expect("a refusal")),
            };
            assert_eq!(answer, expected, "{step:?}");
            assert!(table == run.table && *tally.counts() == run.tally && <[u32; 64]>::from(tally) == run.tally);
        } else {
            run.step(&REFERENCE, &step);
        }
        let rate = random.below(LARGEST_RATE + 2);
        let (answer, charges, total) = stated(&REFERENCE, &run.tally, rate);
        let expected = if answer == 1 { Ok(Statement { charges, total }) } else { Err(Refusal::BadRate) };
        assert_eq!(Tally::from(run.tally).statement(rate), expected, "rate {rate}");
    }
    assert_eq!(Tally::new(), Tally::from([0; 64]));
}
