//! The lines of a transcript: their forms, their places and their answers.
use super::{answers, check, same, written};

#[test]
fn the_examples() {
    for name in ["floor", "brands"] {
        let input = std::fs::read(format!("examples/{name}.tsv")).unwrap();
        let output = std::fs::read(format!("examples/{name}.out")).unwrap();
        same(&written(&input), &output, name);
    }
}

#[test]
fn refusals_in_order() {
    check(&[
        ("roles", 1),
        ("open 99 99 99", 11),
        ("open 1 2", 10),
        ("above 64 0", 19),
        ("above 0 64", 19),
        ("permit 8 0", 19),
        ("permit 0 64", 19),
        ("above 1", 10),
        ("above 1 2 3", 10),
        ("run", 1),
        ("above 64 64", 11),
        ("permit 0 0", 11),
        ("run", 11),
        ("roles", 11),
        ("lattice", 11),
        ("above 1", 10),
        ("start 32 0 0", 16),
        ("start 0 64 0", 16),
        ("start 0 0", 10),
        ("start 0 0 0 0", 10),
        ("grant 0 0 0", 17),
        ("revoke 0 0 0", 17),
        ("close 31 63 7", 1),
        ("end 0", 0),
    ]);
}

#[test]
fn mode_words() {
    check(&[
        ("run", 10),
        ("above 1 2", 10),
        ("open 0 0 0", 10),
        ("", 10),
        ("roles 1", 10),
        ("roles ", 10),
        ("lattice", 1),
        ("lattice", 11),
        ("roles", 11),
        ("roles 1", 10),
        ("run ", 10),
        ("run 0", 10),
        ("run", 1),
        ("lattice", 11),
    ]);
}

#[test]
fn words_of_the_other_mode() {
    check(&[
        ("lattice", 1),
        ("permit 0 0", 10),
        ("above 1 0", 10),
        ("activate 0 0", 10),
        ("run", 1),
        ("permit 0 0", 10),
        ("activate 0 0", 10),
        ("grant 0 0 0", 10),
        ("start 0 0 0", 1),
    ]);
    check(&[("roles", 1), ("clear 0 0", 10), ("label 0 0", 10), ("reclear 0 0", 10), ("run", 1), ("reclear 0 0", 10)]);
}

#[test]
fn numbers() {
    for (field, answer) in [
        ("0", 1),
        ("63", 1),
        ("64", 19),
        ("256", 19),
        ("18446744073709551615", 19),
        ("18446744073709551616", 10),
        ("18446744073709551617", 10),
        ("18446744073709551625", 10),
        ("20000000000000000000", 10),
        ("99999999999999999999", 10),
        ("100000000000000000000", 10),
        ("184467440737095516160", 10),
        ("00", 10),
        ("01", 10),
        ("+1", 10),
        ("-1", 10),
        ("1.", 10),
        ("1e1", 10),
        ("0x1", 10),
        ("", 10),
    ] {
        let input = format!("roles\nabove\t{field}\t0\nabove\t0\t{field}\n");
        assert_eq!(answers(input.as_bytes()), [1, answer, answer], "{field}");
    }
    check(&[
        ("lattice", 1),
        ("label 0 256", 19),
        ("label 0 31", 1),
        ("label 0 32", 19),
        ("clear 0 32", 19),
        ("clear 64 0", 19),
        ("clear 0 18446744073709551615", 19),
        ("run", 1),
        ("open 0 0 18446744073709551615", 16),
    ]);
}

#[test]
fn bytes_that_belong_nowhere() {
    for byte in (0u8..=255).filter(|b| *b != b'\n') {
        let mut input = b"roles".to_vec();
        input.push(byte);
        input.extend(b"\n");
        assert_eq!(answers(&input), [10], "roles and {byte}");
        let mut input = b"roles\nabove\t1".to_vec();
        input.push(byte);
        input.extend(b"\t2\nabove\t1\t2");
        input.push(byte);
        input.extend(b"\n");
        let wanted = if byte.is_ascii_digit() { 1 } else { 10 };
        assert_eq!(answers(&input), [1, wanted, wanted], "a field and {byte}");
        let mut input = vec![byte];
        input.extend(b"roles\n");
        assert_eq!(answers(&input), [10], "{byte} and roles");
    }
}

#[test]
fn set_up_lists() {
    check(&[
        ("roles", 1),
        ("above 3 3", 1),
        ("above 5 3", 1),
        ("above 5 3", 1),
        ("permit 0 9", 1),
        ("permit 0 9", 1),
        ("run", 1),
        ("assign 2 5", 1),
        ("start 0 2 0", 1),
        ("activate 0 3", 1),
        ("activate 0 4", 0),
    ]);
    check(&[
        ("lattice", 1),
        ("clear 1 31", 1),
        ("clear 1 9", 1),
        ("clear 1 32", 19),
        ("label 2 31", 1),
        ("label 2 1", 1),
        ("run", 1),
        ("start 0 1 31", 0),
        ("start 0 1 9", 1),
        ("open 0 2 0", 1),
        ("open 0 3 0", 1),
        ("open 0 2 1", 0),
    ]);
}

#[test]
fn cycles() {
    check(&[
        ("roles", 1),
        ("above 1 2", 1),
        ("above 2 3", 1),
        ("above 3 1", 1),
        ("run", 20),
        ("start 0 0 0", 11),
        ("permit 0 0", 1),
        ("above 9 64", 19),
        ("run", 20),
        ("roles", 11),
        ("run", 20),
    ]);
}

/// Bench cases A to H of the scope.
#[test]
fn bench_cases() {
    check(&[
        ("roles", 1),
        ("above 5 3", 1),
        ("above 3 1", 1),
        ("permit 0 9", 1),
        ("run", 1),
        ("grant 1 0 9", 1),
        ("grant 1 1 9", 17),
        ("start 0 2 0", 1),
        ("start 0 2 0", 0),
        ("assign 2 3", 1),
        ("activate 0 5", 0),
        ("activate 0 1", 1),
        ("activate 0 3", 1),
        ("open 0 9 0", 1),
        ("drop 0 1", 1),
        ("drop 0 3", 0),
        ("deassign 2 3", 0),
        ("assign 2 5", 1),
        ("deassign 2 3", 1),
        ("revoke 1 0 9", 0),
        ("grant 3 0 9", 1),
        ("revoke 1 0 9", 1),
        ("close 5 9 0", 1),
        ("open 5 9 0", 0),
    ]);
}

/// A generator of numbers that needs no crate.
struct Numbers(u64);

impl Numbers {
    fn below(&mut self, n: u64) -> u64 {
        self.0 = self.0.wrapping_mul(6364136223846793005).wrapping_add(1442695040888963407);
        (self.0 >> 33) % n
    }
}

fn random_lines(seed: u64, mode: &str, count: usize) -> String {
    let words = [
        "above", "permit", "clear", "label", "run", "open", "close", "start", "end", "activate", "drop", "assign",
        "deassign", "grant", "revoke", "reclear", "roles", "lattice", "", "nothing",
    ];
    let mut numbers = Numbers(seed);
    let mut input = format!("{mode}\n");
    for _ in 0..count {
        input += words[numbers.below(words.len() as u64) as usize];
        for _ in 0..numbers.below(4) {
            input += "\t";
            input += &numbers.below(if numbers.0 % 16 == 0 { 80 } else { 8 }).to_string();
        }
        input += "\n";
    }
    input
}

#[test]
fn answers_that_are_never_shown() {
    for mode in ["roles", "lattice"] {
        for seed in 0..20 {
            for answer in answers(random_lines(seed, mode, 2000).as_bytes()) {
                assert!([0, 1, 10, 11, 16, 17, 19, 20].contains(&answer), "{answer}");
            }
        }
    }
}

/// Before the first line no pair is a permission, no role is above another, and all clearances and labels are 0.
#[test]
fn nothing_is_set_up_at_the_start() {
    let mut input = "roles\nrun\n".to_string();
    let mut wanted = vec![1, 1];
    for x in 0..8 {
        for o in 0..64 {
            input += &format!("grant\t0\t{x}\t{o}\n");
            wanted.push(17);
        }
    }
    for r in 0..64 {
        input += &format!("assign\t{r}\t{r}\nstart\t0\t{r}\t0\n");
        wanted.extend([1, 1]);
        for q in 0..64 {
            input += &format!("activate\t0\t{q}\n");
            wanted.push(u64::from(q == r));
        }
        input += "end\t0\n";
        wanted.push(1);
    }
    assert_eq!(answers(input.as_bytes()), wanted, "roles");
    let mut input = "lattice\nrun\n".to_string();
    let mut wanted = vec![1, 1];
    for u in 0..64 {
        for y in 1..32 {
            input += &format!("start\t0\t{u}\t{y}\n");
            wanted.push(0);
        }
        input += &format!("start\t0\t{u}\t0\n");
        wanted.push(1);
        for o in 0..64 {
            input += &format!("open\t0\t{o}\t0\n");
            wanted.push(1);
        }
        input += "end\t0\n";
        wanted.push(1);
    }
    assert_eq!(answers(input.as_bytes()), wanted, "lattice");
}

/// The third field of a start in `roles` is a set of roles: each must be authorised, and no number below 2^64 is too large.
#[test]
fn starts_with_roles() {
    check(&[
        ("roles", 1),
        ("above 5 3", 1),
        ("above 3 1", 1),
        ("run", 1),
        ("assign 2 3", 1),
        ("start 0 2", 10),
        ("start 0 2 10", 1),
        ("deassign 2 3", 0),
        ("start 1 2 40", 0),
        ("start 1 2 18446744073709551615", 0),
        ("start 1 2 18446744073709551616", 10),
        ("start 32 2 18446744073709551615", 16),
        ("start 1 2 0", 1),
        ("start 1 2 8", 0),
    ]);
}
