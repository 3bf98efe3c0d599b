//! A case that fails is made shorter and printed: what is left still fails, and what is printed reads as the same case.

use compare::{damaged, requests, set_ups, shrink, tallies, Case, Layer, Random};

#[test]
fn what_fails_is_kept() {
    let items: Vec<u32> = (0..100).collect();
    let fails = |part: &[u32]| part.contains(&17) && part.contains(&61);
    assert_eq!(shrink(&items, fails), [17, 61]);
}

#[test]
fn a_printed_case_reads_the_same() {
    let mut random = Random::new(5);
    for _ in 0..50 {
        let lists = Layer::ALL.map(|layer| requests(&mut random, layer));
        for case in lists.into_iter().chain([damaged(&mut random), set_ups(&mut random), tallies(&mut random)]) {
            assert_eq!(case.to_string().parse::<Case>(), Ok(case));
        }
    }
}
