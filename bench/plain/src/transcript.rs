//! The transcript program: input and output in blocks, one pass over each line, and no soundness test after `run`.

use crate::table::{Table, WORDS};
use crate::{labels, roles, YES};
use std::io::{self, Read, Write};

const BLOCK: usize = 1 << 16;
/// The longest line, without its newline.
const LONGEST: usize = 128;
/// Room for one line of output: three numbers, two tabs and a newline.
const ROOM: usize = 64;
/// Room for a usual line: 8 letters, three numbers of 19 digits, and a byte behind each. (With so much left of a block
/// its end is not looked for.)
const USUAL: usize = 69;
/// The first line of the output.
const HEADER: &[u8] = b"line\tanswer\tspent\n";

/// Reads a transcript and writes its output.
pub fn run(mut input: impl Read, output: impl Write) -> io::Result<()> {
    let mut transcript = Transcript::new(output);
    let mut block = vec![0; BLOCK];
    // the bytes of a line that is not yet whole, and whether some of its bytes were left out as too many
    let (mut kept, mut overlong) = (0, false);
    loop {
        let filled = kept + input.read(&mut block[kept..])?;
        if filled == kept {
            break;
        }
        let mut at = 0;
        while let Some((length, record)) = read(&block[at..filled]) {
            transcript.line(record.filter(|_| !overlong))?;
            overlong = false;
            at += length + 1;
        }
        kept = filled - at;
        if kept > LONGEST {
            (kept, overlong) = (0, true);
        }
        block.copy_within(at..at + kept, 0);
    }
    if kept > 0 || overlong {
        transcript.row(10, 0)?;
    }
    transcript.flush()
}

/// A line that is a word with fields: the word's letters packed, the fields and their number.
struct Record {
    word: u64,
    fields: [u64; 3],
    count: usize,
}

/// The letters of a word of at most eight, packed.
const fn packed(text: &[u8]) -> u64 {
    let (mut word, mut at) = (0, 0);
    while at < text.len() {
        word = word << 8 | text[at] as u64;
        at += 1;
    }
    word
}

/// The length of the first line of a block, and its record where it is one; none where no newline ends it.
#[inline]
fn read(bytes: &[u8]) -> Option<(usize, Option<Record>)> {
    match bytes.first_chunk().map(usual) {
        Some(Ok((length, record))) => Some((length, Some(record))),
        Some(Err(at)) if !bytes[at].is_ascii_digit() => Some((skip(bytes, at)?, None)),
        _ => read_any(bytes),
    }
}

/// The length of a usual line and its record. Where it is no usual line, the place of the byte that breaks it: it is no
/// record then, unless that byte is a digit.
#[inline]
fn usual(bytes: &[u8; USUAL]) -> Result<(usize, Record), usize> {
    let (mut at, word) = letters(bytes);
    let mut record = Record { word, fields: [0; 3], count: 0 };
    for (count, place) in record.fields.iter_mut().enumerate() {
        if bytes[at] != b'\t' {
            break;
        }
        let (length, value) = bytes[at + 1..].first_chunk().and_then(number).ok_or(at + 1)?;
        *place = value;
        record.count = count + 1;
        at += 1 + length;
    }
    if bytes[at] == b'\n' {
        Ok((at, record))
    } else {
        Err(at)
    }
}

/// How many letters a line begins with, 8 at most, and these packed.
#[inline]
fn letters(bytes: &[u8; USUAL]) -> (usize, u64) {
    let mut word = 0;
    for (at, letter) in bytes.iter().enumerate().take(8) {
        if !letter.is_ascii_lowercase() {
            return (at, word);
        }
        word = word << 8 | u64::from(*letter);
    }
    (8, word)
}

/// How many digits a number has, up to 19, and its value; none where it has no digit. Behind a first 0 stands no other.
#[inline]
fn number(bytes: &[u8; 19]) -> Option<(usize, u64)> {
    let mut value = 0;
    for (at, byte) in bytes.iter().enumerate() {
        let digit = byte.wrapping_sub(b'0');
        if digit > 9 || at > 0 && value == 0 {
            return Some((at, value)).filter(|_| at > 0);
        }
        value = value * 10 + u64::from(digit);
    }
    Some((19, value))
}

/// The same as `read`, for a line of any form: the block's end is looked for at each byte.
fn read_any(bytes: &[u8]) -> Option<(usize, Option<Record>)> {
    let mut record = Record { word: 0, fields: [0; 3], count: 0 };
    let mut at = 0;
    loop {
        match *bytes.get(at)? {
            b'\n' => return Some((at, Some(record))),
            b'\t' => break,
            letter @ b'a'..=b'z' if at < 8 => record.word = record.word << 8 | u64::from(letter),
            _ => return Some((skip(bytes, at)?, None)),
        }
        at += 1;
    }
    loop {
        let (end, value) = field(bytes, at + 1)?;
        at = end;
        let (Some(value), Some(place)) = (value, record.fields.get_mut(record.count)) else {
            return Some((skip(bytes, at)?, None));
        };
        *place = value;
        record.count += 1;
        if bytes[at] == b'\n' {
            return Some((at, Some(record)));
        }
    }
}

/// The end of a field and its value; no value where it is no number.
#[inline]
fn field(bytes: &[u8], from: usize) -> Option<(usize, Option<u64>)> {
    let (mut at, mut value) = (from, 0u64);
    loop {
        match *bytes.get(at)? {
            digit @ b'0'..=b'9' => {
                let next = value.checked_mul(10).and_then(|tens| tens.checked_add(u64::from(digit - b'0')));
                let leading = value == 0 && at > from;
                match next {
                    Some(next) if !leading => value = next,
                    _ => return Some((at, None)),
                }
            }
            b'\t' | b'\n' => return Some((at, Some(value).filter(|_| at > from))),
            _ => return Some((at, None)),
        }
        at += 1;
    }
}

/// The length of a line that is no record, from a place in it on; none where no newline ends it.
#[cold]
fn skip(bytes: &[u8], from: usize) -> Option<usize> {
    Some(from + bytes[from..].iter().position(|byte| *byte == b'\n')?)
}

#[derive(Clone, Copy, PartialEq, Eq)]
enum Mode {
    Unset,
    Roles,
    Lattice,
}

/// What a word is for.
enum Use {
    Mode(Mode),
    Run,
    Above,
    Permit,
    Clear,
    Label,
    Request(u64),
}

/// The words of a mode, their use and their number of fields.
#[inline]
fn look_up(mode: Mode, word: u64) -> Option<(Use, usize)> {
    let known = match mode {
        Mode::Unset => None,
        Mode::Roles => roles_word(word),
        Mode::Lattice => lattice_word(word),
    };
    known.or_else(|| mode_word(word))
}

fn mode_word(word: u64) -> Option<(Use, usize)> {
    const ROLES: u64 = packed(b"roles");
    const LATTICE: u64 = packed(b"lattice");
    match word {
        ROLES => Some((Use::Mode(Mode::Roles), 0)),
        LATTICE => Some((Use::Mode(Mode::Lattice), 0)),
        _ => None,
    }
}

const RUN: u64 = packed(b"run");
const OPEN: u64 = packed(b"open");
const CLOSE: u64 = packed(b"close");
const START: u64 = packed(b"start");
const END: u64 = packed(b"end");

#[inline]
fn roles_word(word: u64) -> Option<(Use, usize)> {
    const ACTIVATE: u64 = packed(b"activate");
    const DROP: u64 = packed(b"drop");
    const ASSIGN: u64 = packed(b"assign");
    const DEASSIGN: u64 = packed(b"deassign");
    const GRANT: u64 = packed(b"grant");
    const REVOKE: u64 = packed(b"revoke");
    const ABOVE: u64 = packed(b"above");
    const PERMIT: u64 = packed(b"permit");
    Some(match word {
        OPEN => (Use::Request(1), 3),
        CLOSE => (Use::Request(2), 3),
        START => (Use::Request(3), 3),
        END => (Use::Request(4), 1),
        ACTIVATE => (Use::Request(5), 2),
        DROP => (Use::Request(6), 2),
        ASSIGN => (Use::Request(7), 2),
        DEASSIGN => (Use::Request(8), 2),
        GRANT => (Use::Request(9), 3),
        REVOKE => (Use::Request(10), 3),
        ABOVE => (Use::Above, 2),
        PERMIT => (Use::Permit, 2),
        RUN => (Use::Run, 0),
        _ => return None,
    })
}

#[inline]
fn lattice_word(word: u64) -> Option<(Use, usize)> {
    const RECLEAR: u64 = packed(b"reclear");
    const CLEAR: u64 = packed(b"clear");
    const LABEL: u64 = packed(b"label");
    Some(match word {
        OPEN => (Use::Request(1), 3),
        CLOSE => (Use::Request(2), 3),
        START => (Use::Request(3), 3),
        END => (Use::Request(4), 1),
        RECLEAR => (Use::Request(5), 2),
        CLEAR => (Use::Clear, 2),
        LABEL => (Use::Label, 2),
        RUN => (Use::Run, 0),
        _ => return None,
    })
}

/// The answer and spent, or the number of a refusal.
type Outcome = Result<(u64, u64), u64>;

/// The number of a row in decimal: its digits, and zeros behind them.
struct Number {
    digits: [u8; 20],
    length: usize,
}

impl Number {
    /// Counts one up.
    #[inline]
    fn count_up(&mut self) {
        for digit in self.digits[..self.length].iter_mut().rev() {
            if *digit < b'9' {
                *digit += 1;
                return;
            }
            *digit = b'0';
        }
        self.digits[0] = b'1';
        self.length += 1;
    }
}

struct Transcript<W> {
    output: W,
    buffer: Box<[u8; BLOCK]>,
    used: usize,
    number: Number,
    mode: Mode,
    running: bool,
    table: Table,
    juniors: [u64; 64],
    permissions: [u64; 8],
    clearances: [u8; 64],
    labels: [u8; 64],
}

impl<W: Write> Transcript<W> {
    fn new(output: W) -> Self {
        let mut buffer = Box::new([0; BLOCK]);
        buffer[..HEADER.len()].copy_from_slice(HEADER);
        Transcript {
            output,
            buffer,
            used: HEADER.len(),
            number: Number { digits: *b"10000000000000000000", length: 1 },
            mode: Mode::Unset,
            running: false,
            table: [0; WORDS],
            juniors: [0; 64],
            permissions: [0; 8],
            clearances: [0; 64],
            labels: [0; 64],
        }
    }

    /// Carries out a line and prints its result; no record: refusal 10.
    #[inline]
    fn line(&mut self, record: Option<Record>) -> io::Result<()> {
        let outcome = record.ok_or(10).and_then(|record| self.step(&record));
        let (answer, spent) = outcome.unwrap_or_else(|refusal| (refusal, 0));
        self.row(answer, spent)
    }

    /// Writes the next row. An answer has two digits at most, and spent has one.
    #[inline(always)]
    fn row(&mut self, answer: u64, spent: u64) -> io::Result<()> {
        if self.used > BLOCK - ROOM {
            self.flush()?;
        }
        let row = &mut self.buffer[self.used..self.used + ROOM];
        row[..20].copy_from_slice(&self.number.digits);
        let (mut at, mut answer) = (self.number.length, answer as u8);
        row[at] = b'\t';
        if answer > 9 {
            at += 1;
            row[at] = b'0' + answer / 10;
            answer %= 10;
        }
        row[at + 1..at + 5].copy_from_slice(&[b'0' + answer, b'\t', b'0' + spent as u8, b'\n']);
        self.used += at + 5;
        self.number.count_up();
        Ok(())
    }

    fn flush(&mut self) -> io::Result<()> {
        self.output.write_all(&self.buffer[..self.used])?;
        self.used = 0;
        self.output.flush()
    }

    #[inline]
    fn step(&mut self, record: &Record) -> Outcome {
        let (purpose, count) = look_up(self.mode, record.word).ok_or(10u64)?;
        if record.count != count {
            return Err(10);
        }
        let [a, b, c] = record.fields;
        match purpose {
            Use::Request(_) if !self.running => Err(11),
            Use::Request(code) if self.mode == Mode::Roles => Ok((roles::serve(&mut self.table, code, a, b, c)?, 1)),
            Use::Request(code) => labels::serve(&mut self.table, code, a, b, c),
            Use::Mode(_) if self.mode != Mode::Unset => Err(11),
            Use::Mode(mode) => {
                self.mode = mode;
                Ok((YES, 0))
            }
            _ if self.running => Err(11),
            Use::Run => self.begin(),
            other => self.set_up(other, a, b),
        }
    }

    fn begin(&mut self) -> Outcome {
        let answer = match self.mode {
            Mode::Roles => roles::set_up(&mut self.table, &self.juniors, &self.permissions)?,
            _ => labels::set_up(&mut self.table, &self.clearances, &self.labels)?,
        };
        self.running = true;
        Ok((answer, 0))
    }

    fn set_up(&mut self, purpose: Use, a: u64, b: u64) -> Outcome {
        let (most, most_second) = match purpose {
            Use::Above => (63, 63),
            Use::Permit => (7, 63),
            _ => (63, 31),
        };
        if a > most || b > most_second {
            return Err(19);
        }
        let at = a as usize;
        match purpose {
            Use::Above => self.juniors[at] |= 1 << b,
            Use::Permit => self.permissions[at] |= 1 << b,
            Use::Clear => self.clearances[at] = b as u8,
            _ => self.labels[at] = b as u8,
        }
        Ok((YES, 0))
    }
}
