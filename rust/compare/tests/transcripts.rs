//! Whole transcripts, held to the output of the second implementation.

use compare::{check_transcript, every_transcript, random_transcript, readers, Layer, Random, Reached};
use reference::transcript::transcript;
use std::collections::BTreeSet;

#[test]
fn every_line_and_every_answer() {
    let (mut random, mut reached, readers) = (Random::new(8), Reached::default(), readers());
    for _ in 0..2000 {
        let input = random_transcript(&mut random);
        if let Err(difference) = check_transcript(&input, &readers, &mut reached) {
            panic!("{difference}");
        }
    }
    let every = every_transcript();
    let missing = reached.missing(&every);
    assert!(missing.is_empty(), "not reached: {missing:?}");
    println!("{} lines compared", reached.total());
}

/// Holds the second implementation to an output, and every reader to the second implementation.
fn check_output(input: &[u8], output: &str) {
    assert_eq!(transcript(input), output);
    assert_eq!(check_transcript(input, &readers(), &mut Reached::default()), Ok(()));
}

/// The scope's listing, with 1 spent on lines 6 and 10 (02, S-1).
#[test]
fn the_listing_of_the_scope() {
    let input = "lattice\nclear 4 17\nlabel 7 9\nlabel 8 25\nrun\nstart 2 4 17\nopen 2 7 0\nopen 2 7 1\nopen 2 8 1\n\
                 start 3 4 18\nreclear 4 9\nend 2\nreclear 4 9\n";
    let output = "line answer spent\n1 1 0\n2 1 0\n3 1 0\n4 1 0\n5 1 0\n6 1 1\n7 1 1\n8 0 1\n9 1 1\n10 0 1\n11 0 3\n\
                  12 1 1\n13 1 2\n";
    check_output(input.replace(' ', "\t").as_bytes(), &output.replace(' ', "\t"));
}

/// A start of a role transcript has three fields, the third any number below 2^64; its yes and its no spend 1.
#[test]
fn starts_with_roles() {
    let input = "roles\nabove 5 3\nabove 3 1\nrun\nassign 2 3\nstart 0 2\nstart 0 2 0 0\nstart 0 2 10\nactivate 0 5\n\
                 start 1 2 40\nstart 1 2 18446744073709551615\nstart 1 2 18446744073709551616\nstart 1 2 08\n\
                 start 32 2 18446744073709551615\nstart 1 2 0\nstart 1 2 8\n";
    let output = "line answer spent\n1 1 0\n2 1 0\n3 1 0\n4 1 0\n5 1 1\n6 10 0\n7 10 0\n8 1 1\n9 0 1\n10 0 1\n11 0 1\n\
                  12 10 0\n13 10 0\n14 16 0\n15 1 1\n16 0 1\n";
    check_output(input.replace(' ', "\t").as_bytes(), &output.replace(' ', "\t"));
}

/// A label start spends 1 with a no for its level, with a yes and with a no for a session in use, and 0 where it is refused.
#[test]
fn label_starts() {
    let input = "lattice\nclear 4 17\nrun\nstart 3 4 18\nstart 3 4 17\nstart 3 4 17\nstart 3 4 32\nstart 3 4\n";
    let output = "line answer spent\n1 1 0\n2 1 0\n3 1 0\n4 0 1\n5 1 1\n6 0 1\n7 16 0\n8 10 0\n";
    check_output(input.replace(' ', "\t").as_bytes(), &output.replace(' ', "\t"));
}

/// Lines that are accepted or refused, none of which spends anything.
#[test]
fn forms_and_places() {
    let long = format!("roles\n{}\n", "x".repeat(500));
    let inputs: [(&[u8], &[u64]); 17] = [
        (b"", &[]),
        (b"\n", &[10]),
        (b"\n\n", &[10, 10]),
        (b"\0\n\xff", &[10, 10]),
        (b"roles", &[10]),
        (b"roles\n", &[1]),
        (b"roles\nrun", &[1, 10]),
        (b"roles\nrun\n", &[1, 1]),
        (b"roles\nrun\nend\t0", &[1, 1, 10]),
        (b"run\nroles\nroles\n", &[10, 1, 11]),
        (b"roles\t\nroles\t0\nroles\n\nlattice\n", &[10, 10, 1, 10, 11]),
        (b"roles\npermit\t0\t0\nclear\t0\t0\nopen\t0\t0\t0\nrun\nrun\npermit\t0\t0\n", &[1, 1, 10, 11, 1, 11, 11]),
        (
            b"roles\nabove\t1\t1\nabove\t1\t2\nabove\t2\t1\nrun\nopen\t0\t0\t0\nabove\t64\t0\nrun\n",
            &[1, 1, 1, 1, 20, 11, 19, 20],
        ),
        (b"lattice\nlabel\t0\t256\nlabel\t0\t18446744073709551615\nlabel\t0\t18446744073709551616\n", &[1, 19, 19, 10]),
        (b"lattice\nlabel\t00\t0\nlabel\t+1\t0\nlabel\t\t0\nlabel 0 0\nlabel\t0\t0\r\n", &[1, 10, 10, 10, 10, 10]),
        (
            b"lattice\nrun\nstart\t0\t0\nopen\t0\t0\t2\nopen\t18446744073709551615\t0\t0\nactivate\t0\t0\n",
            &[1, 1, 10, 16, 16, 10],
        ),
        (long.as_bytes(), &[1, 10]),
    ];
    for (input, answers) in inputs {
        let rows = answers.iter().enumerate().map(|(at, answer)| format!("{}\t{answer}\t0\n", at + 1));
        check_output(input, &format!("line\tanswer\tspent\n{}", rows.collect::<String>()));
    }
}

/// What stands in a word's place and is none, a bar between two: letters too many or too few, other bytes, and names of
/// requests that have no word.
const NO_WORDS: &[u8] =
    b"|o|ope|opens|xopen|Open|zzzzzzzz|activated|xactivate|xxdeassign|op3n|open |\0open|ope{|\x80|open\xff|link|unlink";

/// Fields of every length, near 2^64, and no numbers.
const SHAPES: &[u8] = b"|0|2|8|31|32|63|64|128|1000000000000000000|9999999999999999999|10000000000000000000|\
    18446744073709551615|18446744073709551616|18446744073709551617|99999999999999999999|100000000000000000000|\
    00|01|0000000000000000001|+1|-1| 1|1 |1a|1/|:|1\r|\0|1\0|\xb1";

fn pieces(list: &[u8]) -> impl Iterator<Item = &[u8]> {
    list.split(|byte| *byte == b'|')
}

/// Every word and what is none, with up to four fields: every shape in every place, the others all short or all long.
/// The lines without fields come last, and of these the mode words.
fn lines_of_shapes() -> Vec<Vec<u8>> {
    let words: BTreeSet<&str> = Layer::ALL.iter().flat_map(|layer| layer.words()).map(|word| word.name).collect();
    let known = words.into_iter().chain(Layer::ALL.map(Layer::mode)).map(str::as_bytes);
    let words: Vec<&[u8]> = pieces(NO_WORDS).chain(known).collect();
    let mut lines = Vec::new();
    for (count, other) in (1..=4).flat_map(|count| [(count, "1"), (count, "9999999999999999999")]) {
        for (word, at) in words.iter().flat_map(|word| (1..=count).map(move |at| (word, at))) {
            lines.extend(pieces(SHAPES).map(|shape| {
                let mut line = vec![other.as_bytes(); 1 + count];
                (line[0], line[at]) = (word, shape);
                line.join(&b'\t')
            }));
        }
    }
    lines.extend(words.into_iter().map(<[u8]>::to_vec));
    lines
}

/// In each mode behind `run`, and before a mode is chosen. The ends make three lengths, and so pieces of three sizes.
#[test]
fn lines_of_every_shape() {
    let (lines, readers, mut reached) = (lines_of_shapes().join(&b'\n'), readers(), Reached::default());
    for start in ["", "roles\nrun\n", "lattice\nrun\n"] {
        for end in ["", "\n", "\n\n"] {
            let input = [start.as_bytes(), &lines, end.as_bytes()].concat();
            if let Err(difference) = check_transcript(&input, &readers, &mut reached) {
                panic!("{difference}");
            }
        }
    }
    println!("{} lines compared", reached.total());
}
