//! What separation sets do to the requests of the random cases: everything that they can, each often.

use crate::common::{every_kind, is_sound, Counts};
use compare::{damaged, requests, watch, Case, Layer, Random, Run, Step, PLAIN, WORDS};

/// Where the pairs of mask and bound begin, those of the dynamic sets, and what is behind them.
const STATIC: usize = 968;
const DYNAMIC: usize = 1000;
const BEHIND: usize = 1032;

/// The answer to a step on the table without its sets.
fn without_sets(table: &[u64], step: &Step) -> Option<u64> {
    let mut run = Run::default();
    run.table.copy_from_slice(table);
    run.table[STATIC..BEHIND].fill(0);
    run.step(&PLAIN, step).map(|reply| reply.answers[0])
}

/// What the sets did to a request that is answered otherwise without them.
fn kind(table: &[u64], step: &Step, answer: u64) -> &'static str {
    match (step, answer) {
        (Step::Role([3, ..]), 0) => "start, no",
        (Step::Role([5, ..]), 0) => "activate, no",
        (Step::Role([7, ..]), 0) => "assign, no",
        (Step::Role([13, ..]), 0) => "link, no",
        (Step::Label(_), 14) => "label request, 14",
        (_, 13) => fault(table),
        _ => panic!("{step:?} is answered {answer} for a set"),
    }
}

/// What is wrong with the sets of a table that is sound without them.
fn fault(table: &[u64]) -> &'static str {
    let is_bad = |pair: &[u64]| pair != [0, 0] && !(2..=pair[0].count_ones().into()).contains(&pair[1]);
    if table[STATIC..BEHIND].chunks(2).any(is_bad) {
        return "13, a pair of error 21";
    }
    let mut rest = table.to_vec();
    rest[DYNAMIC..BEHIND].fill(0);
    if is_sound(&rest) {
        return "13, a dynamic set";
    }
    let idle = (0..64).filter(|user| !table[648..680].contains(&(user + 1)));
    idle.for_each(|user| rest[72 + user as usize] = 0);
    match is_sound(&rest) {
        true => "13, a static set and a user without a session",
        false => "13, a static set and a user with a session",
    }
}

/// Counts what the sets did to the requests of a case, but for those that replace a set.
fn count(case: &Case, counts: &mut Counts) {
    watch(case, |before, step, answer, _| {
        let counted = match step {
            Step::Role([code, ..]) => ![11, 12].contains(code),
            Step::Label(_) => true,
            _ => false,
        };
        if counted && before.len() == WORDS && without_sets(before, step) != Some(answer) {
            counts.add(kind(before, step, answer));
        }
    });
}

#[test]
fn every_effect_of_a_set() {
    let cases = |random: &mut Random| vec![requests(random, Layer::Roles), damaged(random)];
    every_kind([9, 20], 9, 500, cases, count);
}
