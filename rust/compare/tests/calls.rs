//! The calls of every guard, held to the second implementation on random cases.

use crate::common::{every_kind, Counts};
use compare::{
    check, damage_everywhere, damaged, every_call, likeness, links, requests, set_ups, tallies, watch, Case, Guard,
    Layer, Random, Reached, Step, GUARDS, REFERENCE, WORDS,
};

/// Compares each case, and fails with the first that tells two guards apart.
fn compare_all(cases: impl Iterator<Item = Case>) -> Reached {
    let mut reached = Reached::default();
    for case in cases {
        if let Err(difference) = check(&case, &mut reached) {
            panic!("{difference}");
        }
    }
    reached
}

fn some(seed: u64, count: usize, make: fn(&mut Random) -> Case) -> Reached {
    let mut random = Random::new(seed);
    compare_all((0..count).map(|_| make(&mut random)))
}

fn require(reached: &Reached, all: &[String]) {
    let missing = reached.missing(all);
    assert!(missing.is_empty(), "not reached: {missing:?}");
    println!("{} answers compared", reached.total());
}

#[test]
fn every_call_and_every_answer() {
    let roles = || some(1, 350, |random| requests(random, Layer::Roles));
    let labels = || some(2, 200, |random| requests(random, Layer::Labels));
    let others = || {
        [
            some(3, 400, damaged),
            some(4, 400, set_ups),
            some(5, 100, likeness),
            some(8, 150, links),
            some(18, 100, tallies),
        ]
    };
    let mut reached = Reached::default();
    std::thread::scope(|scope| {
        let (roles, labels) = (scope.spawn(roles), scope.spawn(labels));
        others().iter().for_each(|part| reached.merge(part));
        for part in [roles, labels] {
            reached.merge(&part.join().unwrap_or_else(|failure| std::panic::resume_unwind(failure)));
        }
    });
    require(&reached, &every_call());
}

/// What a role start came to, by the table before it.
fn kind_of_start(table: &[u64], session: u64, roles: u64, answer: u64) -> &'static str {
    match answer {
        1 if roles == 0 => "yes without roles",
        1 => "yes with roles",
        0 if table[648 + session as usize] != 0 => "no, busy",
        0 => "no, not authorised",
        _ => "refused",
    }
}

/// Counts what the role starts of a case came to, and the openings of sessions whose roles all came from their start.
fn count_starts(case: &Case, counts: &mut Counts) {
    let mut chosen = [false; 32];
    watch(case, |before, step, answer, after| match step {
        Step::Role([3, session, _, roles]) => {
            counts.add(kind_of_start(before, *session, *roles, answer));
            if *roles == u64::MAX {
                counts.add("all 64 roles");
            }
            if answer == 1 {
                chosen[*session as usize] = *roles != 0;
            }
        }
        Step::Role([5, session, ..]) if answer == 1 => chosen[*session as usize] = false,
        Step::Role([1, session, ..]) if answer == 1 && chosen[*session as usize] && before != after => {
            counts.add("opened after a start with roles");
        }
        _ => {}
    });
}

/// The random cases reach every kind of role start, each often.
#[test]
fn every_kind_of_start() {
    let cases = |random: &mut Random| vec![requests(random, Layer::Roles)];
    every_kind([7, 50], 1, 400, cases, count_starts);
}

/// Every word of a table of a layer damaged: refusals 13 and 14 are reached.
fn damage_every_word(seed: u64, layer: Layer) {
    let reached = compare_all(damage_everywhere(&mut Random::new(seed), layer).into_iter());
    require(&reached, &["role 1: 13", "label 1: 13 0", "label 1: 14 0", "tallied open: 13"].map(String::from));
}

#[test]
fn every_word_of_a_role_table_damaged() {
    damage_every_word(6, Layer::Roles);
}

#[test]
fn every_word_of_a_label_table_damaged() {
    damage_every_word(7, Layer::Labels);
}

/// What the readings answer and write where they are lent too few words or too many.
fn readings(guard: &Guard) -> Vec<(u64, Vec<u64>)> {
    let mut table = [0; WORDS];
    assert_eq!((guard.role_setup)(&mut table, &[0; 64], &[0; 8]), 1);
    let permissions = [0, 1, 7, 9].map(|length| {
        let mut masks = vec![7; length];
        ((guard.effective_permissions)(&table, 0, &mut masks), masks)
    });
    let roles = [0, 2].map(|length| {
        let mut roles = vec![7; length];
        ((guard.authorised_roles)(&table, 0, &mut roles), roles)
    });
    permissions.into_iter().chain(roles).collect()
}

#[test]
fn readings_into_wrong_lengths() {
    for guard in GUARDS {
        assert_eq!(readings(guard), readings(&REFERENCE), "{}", guard.name);
    }
}
