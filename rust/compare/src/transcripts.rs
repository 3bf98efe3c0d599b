//! Whole transcripts: random ones with faulty lines among good ones, and their output by several programs.

use crate::generate::worded_requests;
use crate::random::Random;
use crate::reached::Reached;
use crate::shrink::shrink;
use crate::words::Layer;
use std::io::{self, Read, Write};
use std::path::PathBuf;
use std::process::{Command, Stdio};

/// What reads transcripts.
pub enum Reader {
    /// The plain guard's reader.
    Plain,
    /// A program that reads standard input.
    Program(PathBuf),
}

/// The readers that are held to the second implementation: the plain guard's, and the program that the environment
/// variable `SHEETGUARD_PROGRAM` names.
///
/// # Panics
/// Where the proved guard takes part and no program is named.
pub fn readers() -> Vec<Reader> {
    let program = std::env::var_os("SHEETGUARD_PROGRAM").map(|path| Reader::Program(path.into()));
    assert!(program.is_some() || !cfg!(feature = "proved"), "SHEETGUARD_PROGRAM must name the program `guard`");
    [Some(Reader::Plain), program].into_iter().flatten().collect()
}

/// An input that comes in pieces.
struct Pieces<'a> {
    left: &'a [u8],
    size: usize,
}

impl Read for Pieces<'_> {
    fn read(&mut self, block: &mut [u8]) -> io::Result<usize> {
        let length = self.left.len().min(self.size).min(block.len());
        let (piece, left) = self.left.split_at(length);
        block[..length].copy_from_slice(piece);
        self.left = left;
        Ok(length)
    }
}

impl Reader {
    /// The output for an input that is handed over in small, middling or large pieces, by its length.
    fn output(&self, input: &[u8]) -> io::Result<Vec<u8>> {
        let size = [7, 1021, 1 << 17][input.len() % 3];
        match self {
            Reader::Plain => {
                let mut output = Vec::new();
                plain::transcript::run(Pieces { left: input, size }, &mut output).map(|()| output)
            }
            Reader::Program(path) => {
                let mut child = Command::new(path).stdin(Stdio::piped()).stdout(Stdio::piped()).spawn()?;
                let mut stdin = child.stdin.take().ok_or(io::ErrorKind::BrokenPipe)?;
                std::thread::scope(|scope| {
                    scope.spawn(move || input.chunks(size).try_for_each(|piece| stdin.write_all(piece)));
                    let result = child.wait_with_output()?;
                    match result.status.success() {
                        true => Ok(result.stdout),
                        false => Err(io::Error::other(result.status.to_string())),
                    }
                })
            }
        }
    }
}

/// Holds the output of every reader to that of the second implementation.
///
/// # Errors
/// The first line that differs, and a shorter transcript of which one still does.
pub fn check_transcript(input: &[u8], readers: &[Reader], reached: &mut Reached) -> Result<(), String> {
    let expected = reference::transcript::transcript(input);
    count(input, &expected, reached);
    if difference_from(&expected, input, readers).is_none() {
        return Ok(());
    }
    let lines: Vec<&[u8]> = input.split_inclusive(|byte| *byte == b'\n').collect();
    let short = shrink(&lines, |lines| difference(&lines.concat(), readers).is_some()).concat();
    let difference = difference(&short, readers).unwrap_or_default();
    Err(format!("{difference}\n---- the transcript:\n{}----", String::from_utf8_lossy(&short)))
}

/// The first line in which a reader differs from the second implementation.
pub fn difference(input: &[u8], readers: &[Reader]) -> Option<String> {
    difference_from(&reference::transcript::transcript(input), input, readers)
}

/// The first line in which a reader's output differs from what is expected.
fn difference_from(expected: &str, input: &[u8], readers: &[Reader]) -> Option<String> {
    readers.iter().find_map(|reader| match reader.output(input) {
        Ok(output) if output == expected.as_bytes() => None,
        Ok(output) => {
            let output = String::from_utf8_lossy(&output);
            let differs = |(one, other): &(&str, &str)| one != other;
            let pair = output.lines().zip(expected.lines()).find(differs);
            Some(format!("{pair:?}, {} of {} lines", output.lines().count(), expected.lines().count()))
        }
        Err(error) => Some(error.to_string()),
    })
}

/// Counts the answer of each line that is ended by a newline, under the mode that was chosen before it.
fn count(input: &[u8], output: &str, reached: &mut Reached) {
    let mut mode = None;
    for (line, result) in input.split_inclusive(|byte| *byte == b'\n').zip(output.lines().skip(1)) {
        let numbers: Vec<u64> = result.split('\t').filter_map(|number| number.parse().ok()).collect();
        if let (Some(line), &[_, answer, spent]) = (line.strip_suffix(b"\n"), &numbers[..]) {
            let line = String::from_utf8_lossy(line);
            reached.line(mode, &line, [answer, spent]);
            mode = mode.or(Layer::of_mode(&line));
        }
    }
}

/// A random transcript: a set-up and requests, with faulty and misplaced lines among them.
pub fn random_transcript(random: &mut Random) -> Vec<u8> {
    let layer = random.one(&Layer::ALL);
    let times = if random.chance(3) { 60 } else { 1 };
    let mut lines = transcript_lines(random, layer, times);
    if random.chance(10) {
        add_cycle(random, &mut lines);
    }
    if random.chance(80) {
        let misplaced = 1 + random.below(8);
        for _ in 0..misplaced {
            let at = if random.chance(15) { 0 } else { random.below(lines.len() as u64 + 1) as usize };
            lines.insert(at, misplaced_line(random).into_bytes());
        }
        for line in &mut lines {
            if random.chance(4) {
                *line = faulty(random, line);
            }
        }
    }
    let mut input = lines.join(&b'\n');
    if random.chance(80) {
        input.push(b'\n');
    }
    input
}

/// The lines of a random case that a transcript can say, its requests going on so many times.
fn transcript_lines(random: &mut Random, layer: Layer, times: usize) -> Vec<Vec<u8>> {
    let count = 1 + random.below(100) as usize;
    let text = worded_requests(random, layer, count).to_string();
    let lines: Vec<&str> = text.lines().filter(|line| !line.starts_with('!')).collect();
    let end = lines.iter().position(|line| *line == "run").map_or(lines.len(), |at| at + 1);
    let (setup, asked) = lines.split_at(end);
    [setup, &asked.repeat(times)].concat().iter().map(|line| line.as_bytes().to_vec()).collect()
}

/// Puts a role above another that is above it, where the first lines after the mode word name two.
fn add_cycle(random: &mut Random, lines: &mut Vec<Vec<u8>>) {
    let at = 1 + random.below(4) as usize;
    let text = lines.get(at).map(|line| String::from_utf8_lossy(line).into_owned()).unwrap_or_default();
    if let ["above", senior, junior] = text.split('\t').collect::<Vec<_>>()[..] {
        lines.insert(at, format!("above\t{junior}\t{senior}").into_bytes());
    }
}

/// A line of either mode, with values in range, at its limit or out of it.
fn misplaced_line(random: &mut Random) -> String {
    let layer = random.one(&Layer::ALL);
    if random.chance(15) {
        return layer.mode().to_string();
    }
    let word = random.one(layer.words());
    let largest = [0, 1, 7, 8, 31, 32, 63, 64, 256, u64::MAX];
    let fields = word.fields.iter().map(|_| match random.below(2) {
        0 => random.below(8),
        _ => random.one(&largest),
    });
    fields.fold(word.name.to_string(), |line, field| format!("{line}\t{field}"))
}

/// Fields that are no numbers, or hardly are.
const FIELDS: [&str; 20] = [
    "",
    "00",
    "01",
    "+1",
    "-1",
    " 1",
    "1 ",
    "1\r",
    "0x1",
    "1\0",
    "a",
    "1.",
    "\u{e9}",
    "18446744073709551615",
    "18446744073709551616",
    "18446744073709551620",
    "28446744073709551615",
    "99999999999999999999",
    "184467440737095516150",
    "340282366920938463463374607431768211456",
];

/// The line with a fault in it.
fn faulty(random: &mut Random, line: &[u8]) -> Vec<u8> {
    let text = String::from_utf8_lossy(line).into_owned();
    let (most, last) = text.rsplit_once('\t').unwrap_or((&text, ""));
    let field = random.one(&FIELDS);
    let filled = |length: usize| format!("{text}{}", "0".repeat(length.saturating_sub(text.len())));
    let odd = match random.below(12) {
        0 => format!("{text}\t"),
        1 => format!("{text}\t0"),
        2 => most.to_string(),
        3 => format!("\t{text}"),
        4 => text.replacen('\t', "\t\t", 1),
        5 => text.to_uppercase(),
        6 => filled(random.one(&[126, 127, 128, 129, 130, 131])),
        7 => filled(random.below(150_000) as usize),
        8 => format!("{text}{last}"),
        9 => return (0..random.below(40)).map(|_| random.word() as u8).collect(),
        _ => format!("{most}\t{field}"),
    };
    odd.into_bytes()
}
