//! Changes of seniority: links and damaged links on every guard, and what links come to in the random cases: everything that
//! they can, each often.

use crate::common::{after, ask, ask_all, close, every_kind, expect, judge, Counts, Words, MASKS};
use compare::{damaged, guards, links, watch, Case, Guard, Run, Step, PLAIN, WORDS};

/// Where the direct juniors begin.
const DIRECT: usize = 1032;

/// Role 5 above 3, 3 above 1: words 5, 3 and 1 are 42, 10 and 2, words 1037 and 1035 are 8 and 2.
const ABOVE: &str = "roles; above 5 3; above 3 1; run";

#[test]
fn words_of_links() {
    let requests: [([u64; 4], u64, Words); 19] = [
        ([13, 5, 5, 0], 0, &[]), // the same role, in range
        ([13, 1, 5, 0], 0, &[]), // 5 is senior to 1
        ([13, 1, 3, 0], 0, &[]),
        ([13, 5, 1, 0], 1, &[(1037, 10)]), // an indirect junior: seniority stays
        ([13, 5, 3, 0], 1, &[]),           // there already
        ([14, 5, 3, 0], 1, &[(1037, 2), (5, 34)]), // role 1 stays by its own link
        ([14, 5, 3, 0], 0, &[]),
        ([14, 4, 4, 0], 0, &[]),
        ([14, 1, 5, 0], 0, &[]), // the other way round
        ([13, 5, 3, 1], 16, &[]),
        ([14, 5, 1, u64::MAX], 16, &[]),
        ([13, 7, 5, 0], 1, &[(1039, 32), (7, 128 | 34)]),
        ([13, 5, 3, 0], 1, &[(1037, 10), (5, 42), (7, 128 | 42)]), // roles above 5 too
        ([14, 7, 3, 0], 0, &[]),                                   // a junior, and no link
        ([13, 1, 7, 0], 0, &[]),
        ([14, 3, 1, 0], 1, &[(1035, 0), (3, 8)]), // 5 and 7 keep role 1
        ([13, 1, 3, 0], 1, &[(1033, 8), (1, 10)]),
        ([14, 5, 3, 0], 1, &[(1037, 2)]), // by 1 now
        ([14, 5, 1, 0], 1, &[(1037, 0), (5, 32), (7, 128 | 32)]),
    ];
    ask_all(ABOVE, &requests);
}

/// A static set looks at every user, with a session or without, by whatever role they have the senior; a dynamic set at the
/// active roles alone. The mask of roles 1 and 7 is 130, of 0 and 7 it is 129, and of 1, 7 and 8 it is 386.
#[test]
fn links_beside_sets() {
    expect("roles; run; !role 11 0 130 2: 1; assign 9 7: 1; !role 13 7 1 0: 0; deassign 9 7: 1; !role 13 7 1 0: 1");
    expect(
        "roles; above 8 7; above 1 0; run; assign 63 8: 1; !role 11 15 129 2: 1
         !role 13 7 1 0: 0; !role 13 8 1 0: 0; !role 13 7 0 0: 0; !role 13 6 1 0: 1; !role 13 7 6 0: 0
         !role 11 15 386 3: 1; !role 13 7 1 0: 0; !role 11 15 0 0: 1; !role 13 7 1 0: 1; !role 11 0 386 3: 0",
    );
    expect(
        "roles; run; assign 9 7: 1; assign 9 1: 1; start 0 9 128: 1; !role 12 0 130 2: 1
         !role 13 7 1 0: 1; activate 0 1: 0; !role 14 7 1 0: 1; start 1 9 130: 0",
    );
}

/// What a link gives is there at once, and what hangs on it holds it: an opening, or an active role.
#[test]
fn links_in_use() {
    expect(
        "roles; above 5 3; above 3 1; permit 0 9; run
         grant 1 0 9: 1; assign 2 5: 1; start 0 2 32: 1; open 0 9 0: 1
         !role 14 3 1 0: 0; !role 14 5 3 0: 0; !role 13 5 1 0: 1; !role 14 3 1 0: 1; !role 14 5 3 0: 1; !role 14 5 1 0: 0
         close 0 9 0: 1; !role 14 5 1 0: 1; open 0 9 0: 0; activate 0 1: 0",
    );
    expect(
        "roles; above 5 3; above 3 1; run; assign 2 5: 1; start 0 2 2: 1
         !role 14 3 1 0: 0; !role 14 5 3 0: 0; !role 13 5 1 0: 1; !role 14 5 3 0: 1; !role 14 5 1 0: 0
         assign 2 1: 1; !role 14 5 1 0: 1; deassign 2 1: 0; drop 0 1: 1; deassign 2 1: 1",
    );
    expect(
        "roles; permit 0 9; run; grant 1 0 9: 1; assign 4 7: 1; start 31 4 128: 1; open 31 9 0: 0; activate 31 3: 0
         !role 13 3 1 0: 1; open 31 9 0: 0; !role 13 7 3 0: 1; open 31 9 0: 1; activate 31 3: 1; !role 14 3 1 0: 0
         end 31: 1; !role 14 3 1 0: 1; !role 14 7 3 0: 1; start 31 4 8: 0",
    );
}

/// A set-up writes the direct juniors as given, without own bits, over whatever stood there; links lead to the same words.
#[test]
fn direct_juniors_of_a_set_up() {
    let given: Vec<u64> = (0..64).map(|role| if role == 0 { 1 } else { 3 << (role - 1) }).collect();
    for guard in guards() {
        let mut table = [u64::MAX; WORDS];
        assert_eq!((guard.role_setup)(&mut table, &given, &[0; 8]), 1, "{}", guard.name);
        let direct = |role: usize| if role == 0 { 0 } else { 1 << (role - 1) };
        assert!((0..64).all(|role| table[role] == u64::MAX >> (63 - role)), "{}", guard.name);
        assert!((0..64).all(|role| table[DIRECT + role] == direct(role)), "{}", guard.name);
        let orders = [(1..64).collect(), (1..64).rev().collect(), (1..64).map(|at| at * 37 % 64).collect::<Vec<u64>>()];
        for order in orders {
            let mut run = after(guard, "roles; run");
            for senior in &order {
                assert_eq!((guard.role_request)(&mut run.table, 13, *senior, senior - 1, 0), 1, "{}", guard.name);
            }
            assert!(run.table == table, "{order:?} by the {}", guard.name);
            ask(&mut run, guard, [13, 0, 63, 0], 0, &[]);
        }
    }
}

/// The chain of 64 roles is cut in the middle, and is whole again.
#[test]
fn a_chain_cut() {
    let chain: String = (1..64).map(|role| format!("above {role} {}; ", role - 1)).collect();
    for guard in guards() {
        let mut run = after(guard, &format!("roles; {chain}run"));
        let rows = |lowest: usize| (32..64).map(move |role| (role, u64::MAX >> (63 - role) & u64::MAX << lowest));
        let cut: Vec<(usize, u64)> = rows(32).chain([(DIRECT + 32, 0)]).collect();
        ask(&mut run, guard, [14, 32, 31, 0], 1, &cut);
        ask(&mut run, guard, [14, 32, 31, 0], 0, &[]);
        let whole: Vec<(usize, u64)> = rows(0).chain([(DIRECT + 32, 1 << 31)]).collect();
        ask(&mut run, guard, [13, 32, 31, 0], 1, &whole);
    }
}

/// A table after lines, with words put into it.
fn damaged_by(guard: &Guard, text: &str, words: Words) -> Run {
    let mut run = after(guard, text);
    words.iter().for_each(|(at, word)| run.table[*at] = *word);
    run
}

/// Own bits, links that seniority does not know of, juniors that no link leads to, circles, and links that fit.
#[test]
fn damaged_links() {
    let damages: [Words; 13] = [
        &[(1037, 40)],
        &[(1032, 1)],
        &[(1095, 1 << 63)],
        &[(1037, 0)], // the link gone, and the row kept
        &[(1035, 0)],
        &[(1037, 2)],  // another link in its place
        &[(1039, 2)],  // a link, and not the row
        &[(1033, 32)], // to a senior
        &[(7, 130)],   // the row, and no link
        &[(5, 34)],
        &[(5, 32)],
        &[(5, 32), (3, 8)],
        &[(1033, 32), (1, 42), (3, 42)], // the circle 5, 3, 1
    ];
    let circles: [Words; 3] = [
        &[(1032, 2), (1033, 1), (0, 3), (1, 3)],
        &[(1032, 2), (1033, 1), (0, 7), (1, 7)], // each is itself and what its direct junior has
        &[(1032, 2), (1033, 4), (1034, 1), (0, 7), (1, 7), (2, 7)],
    ];
    let fitting: [Words; 4] = [&[(1037, 10)], &[(1039, 2), (7, 130)], &[(1037, 0), (5, 32)], &[(1037, 2), (5, 34)]];
    for guard in guards() {
        damages.iter().for_each(|words| judge(&mut damaged_by(guard, ABOVE, words), guard, [14, 0], false));
        circles.iter().for_each(|words| judge(&mut damaged_by(guard, "roles; run", words), guard, [14, 0], false));
        fitting.iter().for_each(|words| judge(&mut damaged_by(guard, ABOVE, words), guard, [14, 0], true));
    }
}

/// A label image lists every junior but the role itself as direct, and is none with other links, though the juniors are the
/// same. Label 9 dominates 0, 1, 8 and itself.
#[test]
fn links_of_label_tables() {
    for guard in guards() {
        let mut run = after(guard, "lattice; clear 5 17; run; start 2 5 17");
        assert!((0..64).all(|role| run.table[DIRECT + role] == run.table[role] & !(1 << role)), "{}", guard.name);
        ask(&mut run, guard, [13, 9, 0, 0], 1, &[]); // there already
        close(&mut run, guard, [1, 1]);
        ask(&mut run, guard, [14, 9, 0, 0], 1, &[(1041, 0x102)]);
        close(&mut run, guard, [14, 0]);
        ask(&mut run, guard, [13, 9, 0, 0], 1, &[(1041, 0x103)]);
        close(&mut run, guard, [1, 1]);
        // role 0 above role 63, which writes label 31
        let reads: Vec<(usize, u64)> = (0..32).map(|role| (role, run.table[role] | 1 << 63)).collect();
        let back: Vec<(usize, u64)> = (0..32).map(|role| (role, run.table[role])).collect();
        ask(&mut run, guard, [13, 0, 63, 0], 1, &[&reads[..], &[(DIRECT, 1 << 63)]].concat());
        close(&mut run, guard, [14, 0]);
        ask(&mut run, guard, [14, 0, 63, 0], 1, &[&back[..], &[(DIRECT, 0)]].concat());
        close(&mut run, guard, [1, 1]);
        // session 2 has roles 17 and 49 active, of which user 5 has 49 through role 32 by many chains
        let fewer = run.table[DIRECT + 32] & !(1 << 49);
        ask(&mut run, guard, [14, 32, 49, 0], 1, &[(DIRECT + 32, fewer)]);
        close(&mut run, guard, [14, 0]);
    }
}

/// Whether a word has a member.
fn has(word: u64, member: u64) -> bool {
    word >> member & 1 == 1
}

/// The answer to a request on a table with the words of these places 0.
fn without(table: &[u64], places: impl Iterator<Item = usize>, [code, a, b, c]: [u64; 4]) -> u64 {
    let mut rest = table.to_vec();
    places.for_each(|at| rest[at] = 0);
    (PLAIN.role_request)(&mut rest, code, a, b, c)
}

/// What a link answered yes or no came to. Whether a set keeps it from being made does not hang on sessions.
fn kind_of_link(before: &[u64], asked: [u64; 4], answer: u64, after: &[u64]) -> &'static str {
    let [_, senior, junior, _] = asked;
    let others = (72..136).filter(|at| !has(before[*at], senior)).chain(648..968).chain(MASKS..WORDS);
    match answer {
        1 if before == after => "link, there already",
        1 if before[..64] == after[..64] => "link, an indirect junior already",
        1 => "link, new",
        _ if senior == junior => "link, no: the same role",
        _ if has(before[junior as usize], senior) => "link, no: a senior",
        _ if without(before, others, asked) == 1 => "link, no: a set, and a user with a role above",
        _ => "link, no: a set, and a user with the role",
    }
}

/// What an unlink answered yes or no came to.
fn kind_of_unlink(before: &[u64], asked: [u64; 4], answer: u64, after: &[u64]) -> &'static str {
    let [_, senior, junior, _] = asked;
    match answer {
        1 if before[..64] == after[..64] => "unlink, by another chain",
        1 => "unlink, fewer juniors",
        _ if has(before[DIRECT + senior as usize], junior) => match without(before, 712..968, asked) {
            1 => "unlink, no: an opening",
            _ => "unlink, no: an active role",
        },
        _ if senior != junior && has(before[senior as usize], junior) => "unlink, no: an indirect junior",
        _ => "unlink, no: no junior",
    }
}

/// The closure of direct juniors: chains of up to 64 links, doubled in length six times.
fn closure(direct: &[u64]) -> Vec<u64> {
    let joined = |rows: &[u64], row: u64| (0..64).filter(|q| has(row, *q)).fold(0, |all, q| all | rows[q as usize]);
    let once: Vec<u64> = (0..64).map(|role| direct[role] | 1 << role).collect();
    (0..6).fold(once, |rows, _| rows.iter().map(|row| joined(&rows, *row)).collect())
}

/// What is wrong with the links of a table that a call refuses, where it is the links alone.
fn kind_of_fault(table: &[u64], step: &Step, answer: u64) -> Option<&'static str> {
    let (rows, direct) = (&table[..64], &table[DIRECT..MASKS]);
    let reached = closure(direct);
    let mut mended = table.to_vec();
    (0..64).for_each(|role| mended[DIRECT + role] = rows[role] & !(1 << role));
    let answer_mended = match step {
        Step::Role([code, a, b, c]) => (PLAIN.role_request)(&mut mended, *code, *a, *b, *c),
        Step::Label([code, a, b, c]) => (PLAIN.label_request)(&mut mended, *code, *a, *b, *c, &mut 0),
        _ => return None,
    };
    let is_part = |of: &[u64], row: &[u64]| row.iter().zip(of).all(|(row, of)| row & !of == 0);
    let has_circle = (0..64).any(|r| (0..r).any(|q| has(reached[r as usize], q) && has(reached[q as usize], r)));
    let has_own = (0..64).any(|role| has(direct[role as usize], role));
    match answer {
        14 if answer_mended != 14 => Some("14, other links"),
        13 if rows == reached && has_circle && !has_own => Some("13, a circle"),
        13 if answer_mended == 13 => None,
        13 if has_own => Some("13, an own bit"),
        13 if is_part(rows, &reached) => Some("13, juniors that no link leads to"),
        13 if is_part(&reached, rows) => Some("13, links to no juniors"),
        _ => None,
    }
}

/// Counts what the links of a case came to, and the faults of links.
fn count(case: &Case, counts: &mut Counts) {
    watch(case, |before, step, answer, after| {
        let kind = match step {
            Step::Role(asked @ [13, ..]) if answer < 2 => Some(kind_of_link(before, *asked, answer, after)),
            Step::Role(asked @ [14, ..]) if answer < 2 => Some(kind_of_unlink(before, *asked, answer, after)),
            _ if answer == 13 || answer == 14 => kind_of_fault(before, step, answer),
            _ => None,
        };
        kind.into_iter().for_each(|kind| counts.add(kind));
    });
}

#[test]
fn every_kind_of_link_and_fault() {
    every_kind([18, 20], 10, 500, |random| vec![links(random), damaged(random)], count);
}
