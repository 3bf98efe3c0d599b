//! A transcript cut anywhere. Here the program's own object code runs in the test, which answers its reads and writes: a run
//! takes microseconds, so that every pair of cuts can be tried.
use super::{lines_in, same, EDGES, LISTING};
use std::cell::RefCell;
use std::collections::VecDeque;

extern "C" {
    /// The program's `main`: `tests/compile` renames it, and its `read` and `write`, in a copy of target/obj/guard.o.
    fn guard_main() -> i32;
}

thread_local! {
    /// The pieces that are still to be read.
    static PIECES: RefCell<VecDeque<Vec<u8>>> = const { RefCell::new(VecDeque::new()) };
    /// What was written.
    static OUTPUT: RefCell<Vec<u8>> = const { RefCell::new(Vec::new()) };
}

/// The program's `read`: one piece, or 0 for the end.
#[no_mangle]
extern "C" fn guard_read(file: i32, block: *mut u8, room: usize) -> isize {
    let Some(piece) = PIECES.with_borrow_mut(VecDeque::pop_front) else { return 0 };
    assert!(file == 0 && !piece.is_empty() && piece.len() <= room);
    // SAFETY: the program lends `room` bytes
    unsafe { piece.as_ptr().copy_to_nonoverlapping(block, piece.len()) };
    piece.len() as isize
}

/// The program's `write`: all at once.
#[no_mangle]
extern "C" fn guard_write(file: i32, bytes: *const u8, count: usize) -> isize {
    assert_eq!(file, 1, "the program complains");
    // SAFETY: the program lends `count` bytes
    OUTPUT.with_borrow_mut(|output| output.extend_from_slice(unsafe { std::slice::from_raw_parts(bytes, count) }));
    count as isize
}

/// What the program asks behind a call that failed: none does.
#[no_mangle]
extern "C" fn rattle_errno() -> i32 {
    unreachable!("no read and no write fails here")
}

/// What the program writes for an input that is cut at these places.
fn written(input: &[u8], cuts: &[usize]) -> Vec<u8> {
    let ends = cuts.iter().copied().chain([input.len()]);
    let mut at = 0;
    let pieces = ends.map(|end| input[std::mem::replace(&mut at, end)..end].to_vec()).collect();
    PIECES.set(pieces);
    OUTPUT.set(Vec::new());
    // SAFETY: it takes no argument, and calls what stands above
    assert_eq!(unsafe { guard_main() }, 0);
    OUTPUT.take()
}

/// Cut in two and in three between two places, the input gives what it gives in one piece. Answers the cuts tried.
fn check(input: &[u8], from: usize, to: usize) -> usize {
    let wanted = written(input, &[]);
    assert_eq!(wanted.iter().filter(|b| **b == b'\n').count(), 1 + lines_in(input));
    let mut tried = 0;
    for first in from.max(1)..to {
        same(&written(input, &[first]), &wanted, &format!("cut at {first}"));
        for second in first + 1..to {
            same(&written(input, &[first, second]), &wanted, &format!("cut at {first} and {second}"));
        }
        tried += to - first;
    }
    tried
}

#[test]
fn every_pair_of_cuts() {
    let example = |name| std::fs::read(format!("examples/{name}.tsv")).unwrap();
    for input in [LISTING.into(), EDGES.into(), example("floor"), example("brands")] {
        assert_eq!(check(&input, 0, input.len()), input.len() * (input.len() - 1) / 2);
    }
}

/// Words, and pieces that hardly are one; and numbers of many lengths, and pieces that hardly are one.
const WORDS: [&str; 12] =
    ["end", "open", "start", "reclear", "activate", "run", "", "e", "enda", "End", "activates", "deassigned"];
const NUMBERS: [&str; 14] = [
    "0",
    "7",
    "31",
    "063",
    "127",
    "1844674407370955161",
    "9999999999999999999",
    "18446744073709551615",
    "18446744073709551616",
    "184467440737095516150",
    "",
    "-1",
    "1 ",
    "00",
];

/// Lines of every shape, each cut at every pair of places in it, behind a set-up and before lines that leave room for it to be
/// read at once.
#[test]
fn every_pair_of_cuts_of_every_shape() {
    let mut tried = 0;
    let mut line = |mode: &str, fields: &[&str]| {
        let before = format!("{mode}\nrun\n");
        let text = fields.join("\t");
        let input = format!("{before}{text}\n{}", "end\t0\n".repeat(14));
        tried += check(input.as_bytes(), before.len(), before.len() + text.len() + 2);
    };
    for word in WORDS {
        line("roles", &[word]);
        for (i, first) in NUMBERS.into_iter().enumerate() {
            line("roles", &[word, first]);
            let second = NUMBERS[(i * 5 + 1) % NUMBERS.len()];
            line("lattice", &[word, first, second]);
            let third = NUMBERS[(i * 3 + 2) % NUMBERS.len()];
            line("roles", &[word, "7", first, third]);
            line("lattice", &[word, first, second, third]);
            line("roles", &[word, "0", "7", first, ""]);
            line("lattice", &[word, first, "31", "7", "0"]);
        }
    }
    assert_eq!(tried, 394_886);
}
