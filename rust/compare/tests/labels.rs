//! How two labels stand, by the second implementation and by every guard that is held to it: all pairs of labels, and numbers
//! that are no labels.

use compare::{guards, REFERENCE};
use std::collections::BTreeMap;

const EQUAL: u64 = 0;
const ABOVE: u64 = 1;
const BELOW: u64 = 2;
const APART: u64 = 3;
const REFUSED: u64 = 16;

/// The brand sets, in the order of their words.
const SETS: [&[u64]; 8] = [&[], &[1], &[2], &[1, 2], &[3], &[1, 3], &[2, 3], &[1, 2, 3]];

/// Numbers that are no labels; cut to 8 or to 32 bits some of them would be.
const PAST: [u64; 11] = [32, 33, 63, 64, 255, 256, 256 + 17, 1 << 32, (1 << 32) + 17, 1 << 63, u64::MAX];

/// The class and the brands of a label, by counting up to it; none past the last.
fn parts(number: u64) -> Option<(u64, &'static [u64])> {
    let all = (0..4).flat_map(|class| SETS.map(|brands| (class, brands)));
    (0..).zip(all).find(|(at, _)| *at == number).map(|(_, parts)| parts)
}

/// How the first number stands to the second, by what either has that the other has not.
fn by_hand(first: u64, second: u64) -> u64 {
    let (Some((class, brands)), Some((other_class, other_brands))) = (parts(first), parts(second)) else {
        return REFUSED;
    };
    let more = class > other_class || brands.iter().any(|brand| !other_brands.contains(brand));
    let less = class < other_class || other_brands.iter().any(|brand| !brands.contains(brand));
    match (more, less) {
        (false, false) => EQUAL,
        (true, false) => ABOVE,
        (false, true) => BELOW,
        (true, true) => APART,
    }
}

/// The answer where the two numbers change places.
fn turned_round(answer: u64) -> u64 {
    match answer {
        ABOVE => BELOW,
        BELOW => ABOVE,
        _ => answer,
    }
}

/// All pairs of the 32 labels and the 11 numbers that are none, 43 * 43 = 1849, of which 32 * 32 = 1024 are pairs of labels
/// and the other 825 are refused. A label dominates another in 10 * 27 = 270 pairs: 4 + 3 + 2 + 1 pairs of classes, and for
/// each brand 3 of 4, all but the one in which the second alone has it. They are equal in 32 of these, so that 238 are above,
/// as many below, and 1024 - 32 - 2 * 238 = 516 apart.
#[test]
fn all_pairs() {
    let numbers = || (0..32).chain(PAST);
    for guard in guards() {
        let mut counts = BTreeMap::new();
        for (first, second) in numbers().flat_map(|first| numbers().map(move |second| (first, second))) {
            let answer = (guard.compare_labels)(first, second);
            let asked = format!("{first} and {second} by the {}", guard.name);
            assert_eq!(answer, by_hand(first, second), "{asked}");
            assert_eq!(answer, (REFERENCE.compare_labels)(first, second), "{asked}");
            assert_eq!((guard.compare_labels)(second, first), turned_round(answer), "{asked}, turned round");
            *counts.entry(answer).or_insert(0) += 1;
        }
        let expected = [(EQUAL, 32), (ABOVE, 238), (BELOW, 238), (APART, 516), (REFUSED, 825)];
        assert_eq!(counts, BTreeMap::from(expected), "{}", guard.name);
    }
}

#[test]
fn known_pairs() {
    for (first, second, expected) in [
        (17, 18, APART),
        (9, 10, APART),
        (10, 1, APART),
        (8, 7, APART), // the class is higher, and the brands are lacking
        (9, 1, ABOVE),
        (1, 9, BELOW),
        (15, 7, ABOVE),
        (31, 0, ABOVE),
        (0, 31, BELOW),
        (20, 20, EQUAL),
    ] {
        for guard in guards() {
            assert_eq!((guard.compare_labels)(first, second), expected, "{first} and {second} by the {}", guard.name);
        }
    }
}

/// The labels of the Rust crate stand, and are ordered, as those of the second implementation.
#[cfg(feature = "proved")]
#[test]
fn labels_of_the_crate() {
    use reference::Standing::{Above, Apart, Below, Equal};
    use sheetguard::Standing;
    use std::cmp::Ordering;

    for (first, second) in (0..32).flat_map(|first| (0..32).map(move |second| (first, second))) {
        let label = |number| reference::Label::of(number).expect("a label is below 32");
        let (standing, order, operators) = match label(first).stands(label(second)) {
            Equal => (Standing::Equal, Some(Ordering::Equal), [false, true, true, false, true]),
            Above => (Standing::Above, Some(Ordering::Greater), [false, false, false, true, true]),
            Below => (Standing::Below, Some(Ordering::Less), [true, true, false, false, false]),
            Apart => (Standing::Apart, None, [false; 5]),
        };
        let label = |number| sheetguard::Label::new(number).expect("a label is below 32");
        let (one, other) = (label(first), label(second));
        assert_eq!(one.stands(other), standing, "{first} and {second}");
        assert_eq!(one.partial_cmp(&other), order, "{first} and {second}");
        let by_operators = [one < other, one <= other, one == other, one > other, one >= other];
        assert_eq!(by_operators, operators, "{first} and {second}");
    }
    for number in PAST {
        assert!(sheetguard::Label::new(number).is_err(), "{number}");
    }
}
