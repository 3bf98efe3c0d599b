//! The transcript program from outside: what no contract can say of it, that every byte is read once and every row written once
//! and in order, and that it says so where that can't be done; the scope's listing; and the forms of lines (tests/forms.rs).
//! `tests/run` compiles and runs it over target/bin/guard, or over the program that `GUARD` names.
use std::fs::File;
use std::io::{Read, Write};
use std::net::Shutdown;
use std::os::fd::OwnedFd;
use std::os::unix::net::{UnixDatagram, UnixStream};
use std::path::PathBuf;
use std::process::{Child, ChildStdin, Command, Output, Stdio};
use std::sync::mpsc;
use std::thread;
use std::time::Duration;

mod forms;
mod pieces;

const BLOCK: usize = 65536;
const HEADER: &[u8] = b"line\tanswer\tspent\n";
const COMPLAINT: &[u8] = b"guard: not all was read and written\n";

fn program() -> PathBuf {
    std::env::var_os("GUARD").map_or_else(|| PathBuf::from("target/bin/guard"), PathBuf::from)
}

/// A run of the program; one that goes on for ten seconds is ended.
struct Run {
    child: Child,
    _watch: mpsc::Sender<()>,
}

impl Run {
    fn of(command: &mut Command) -> Run {
        let child = command.stderr(Stdio::piped()).spawn().expect("the program is built: tools/build guard");
        let id = child.id().to_string();
        let (watch, over) = mpsc::channel();
        thread::spawn(move || {
            if over.recv_timeout(Duration::from_secs(10)) == Err(mpsc::RecvTimeoutError::Timeout) {
                Command::new("kill").args(["-9", &id]).status().unwrap();
            }
        });
        Run { child, _watch: watch }
    }

    /// The program on this input, its output caught.
    fn on(stdin: impl Into<Stdio>) -> Run {
        Run::of(Command::new(program()).stdin(stdin).stdout(Stdio::piped()))
    }

    /// What it came to.
    fn end(self) -> Output {
        self.child.wait_with_output().unwrap()
    }

    /// What it wrote, where all went well.
    fn end_well(self) -> Vec<u8> {
        let output = self.end();
        assert!(output.status.success(), "{}", output.status);
        assert_eq!(String::from_utf8_lossy(&output.stderr), "");
        output.stdout
    }
}

/// The next so many bytes of what is written.
fn next(mut output: impl Read, count: usize) -> Vec<u8> {
    let mut bytes = vec![0; count];
    output.read_exact(&mut bytes).unwrap();
    bytes
}

/// What the program writes for input from a pipe.
fn written(input: &[u8]) -> Vec<u8> {
    let mut run = Run::on(Stdio::piped());
    let mut stdin = run.child.stdin.take().unwrap();
    thread::scope(|scope| {
        let sent = scope.spawn(move || stdin.write_all(input));
        let all = run.end_well();
        sent.join().unwrap().expect("all is read");
        all
    })
}

/// A file of this run of the tests.
fn scratch(name: &str) -> PathBuf {
    PathBuf::from(format!("target/{}-{name}-{:?}", std::process::id(), thread::current().id()))
}

/// A file with this input, which the program reads in whole blocks.
fn file_of(input: &[u8]) -> File {
    let name = scratch("input");
    std::fs::write(&name, input).unwrap();
    let file = File::open(&name).unwrap();
    std::fs::remove_file(&name).unwrap();
    file
}

/// What it writes for input from a file.
fn written_for_file(input: &[u8]) -> Vec<u8> {
    Run::on(file_of(input)).end_well()
}

/// What it writes for input in pieces: each is a datagram, which a read takes alone and whole, and an empty one is the end.
fn written_for_pieces(pieces: &[&[u8]]) -> Vec<u8> {
    let (near, far) = UnixDatagram::pair().unwrap();
    let run = Run::on(OwnedFd::from(far));
    thread::scope(|scope| {
        let sent = scope.spawn(move || {
            for piece in pieces {
                assert!(!piece.is_empty() && near.send(piece)? == piece.len());
            }
            near.send(&[])
        });
        let all = run.end_well();
        sent.join().unwrap().expect("all is read");
        all
    })
}

/// The lines of an input: those that a newline ends, and what is left over.
fn lines_in(input: &[u8]) -> usize {
    input.iter().filter(|b| **b == b'\n').count() + usize::from(input.last().is_some_and(|b| *b != b'\n'))
}

/// The output with these answers and figures.
fn output_of(rows: impl IntoIterator<Item = (u64, u64)>) -> Vec<u8> {
    let mut all = HEADER.to_vec();
    for (i, (answer, spent)) in rows.into_iter().enumerate() {
        writeln!(all, "{}\t{answer}\t{spent}", i + 1).unwrap();
    }
    all
}

/// The same bytes; where they are not, only the first difference is shown.
fn same(got: &[u8], wanted: &[u8], of: &str) {
    if got != wanted {
        let at = got.iter().zip(wanted).take_while(|(g, w)| g == w).count();
        let part = |bytes: &[u8]| {
            let from = at.saturating_sub(20).min(bytes.len());
            String::from_utf8_lossy(&bytes[from..(at + 20).min(bytes.len())]).into_owned()
        };
        panic!("{of}: byte {at} of {} and {}: {:?}, wanted {:?}", got.len(), wanted.len(), part(got), part(wanted));
    }
}

/// Answer and spent of each row; the header, the line numbers and their count are checked.
fn rows(input: &[u8]) -> Vec<(u64, u64)> {
    let text = String::from_utf8(written(input)).unwrap();
    let rows: Vec<(u64, u64)> = text
        .lines()
        .skip(1)
        .map(|line| {
            let fields: Vec<u64> = line.split('\t').map(|f| f.parse().unwrap()).collect();
            assert_eq!(fields.len(), 3, "{line}");
            (fields[1], fields[2])
        })
        .collect();
    same(text.as_bytes(), &output_of(rows.iter().copied()), "rows");
    assert_eq!(rows.len(), lines_in(input));
    rows
}

fn answers(input: &[u8]) -> Vec<u64> {
    let rows = rows(input);
    for (answer, spent) in &rows {
        assert!(*answer < 10 || *spent == 0, "a refused line spends 0");
    }
    rows.iter().map(|r| r.0).collect()
}

/// Lines with blanks for tabs, and the answer that each is to get.
fn check(cases: &[(&str, u64)]) {
    let input: String = cases.iter().map(|(l, _)| l.replace(' ', "\t") + "\n").collect();
    let got = answers(input.as_bytes());
    let wanted: Vec<u64> = cases.iter().map(|c| c.1).collect();
    assert_eq!(got, wanted, "{input}");
}

const LISTING: &str =
    "lattice\nclear\t4\t17\nlabel\t7\t9\nlabel\t8\t25\nrun\nstart\t2\t4\t17\nopen\t2\t7\t0\nopen\t2\t7\t1\n\
open\t2\t8\t1\nstart\t3\t4\t18\nreclear\t4\t9\nend\t2\nreclear\t4\t9\n";
/// The scope's output, with 1 spent on lines 6 and 10 (02, S-1).
const LISTED: &str =
    "line\tanswer\tspent\n1\t1\t0\n2\t1\t0\n3\t1\t0\n4\t1\t0\n5\t1\t0\n6\t1\t1\n7\t1\t1\n8\t0\t1\n9\t1\t1\n\
10\t0\t1\n11\t0\t3\n12\t1\t1\n13\t1\t2\n";

#[test]
fn the_listing_of_the_scope() {
    same(&written(LISTING.as_bytes()), LISTED.as_bytes(), "the listing");
}

#[test]
fn ends_of_the_input() {
    same(&written(b""), HEADER, "nothing");
    assert_eq!(answers(b"\n"), [10]);
    assert_eq!(answers(b"roles"), [10]);
    assert_eq!(answers(b"roles\n"), [1]);
    assert_eq!(answers(b"roles\nrun"), [1, 10]);
    assert_eq!(answers(b"\n\n\n"), [10, 10, 10]);
}

#[test]
fn long_lines() {
    for n in [127, 128, 129, 130, 65535, 65536, 65537, 10_000_000] {
        let mut input = vec![b'a'; n];
        input.extend(b"\nroles\n");
        assert_eq!(answers(&input), [10, 1], "{n}");
        let mut input = b"roles\nabove\t1\t".to_vec();
        input.extend(vec![b'0'; n]);
        input.extend(b"\nrun\n");
        assert_eq!(answers(&input), [1, 10, 1], "{n}");
    }
    check(&[
        ("roles", 1),
        ("run", 1),
        ("revoke 18446744073709551615 18446744073709551615 18446744073709551615", 16),
        ("revoke 18446744073709551615 18446744073709551615 18446744073709551615 0", 10),
    ]);
}

/// Lines with a form and a place of each kind, and what is written for them; the last has no newline.
const EDGES: &str = "roles\nabove\t5\t3\nabove\t03\t1\npermit\t0\t9\n\nrun\ngrant\t1\t0\t9\n\
open\t0\t9\t18446744073709551616\nend\t0\nrun";
const EDGED: [(u64, u64); 10] = [(1, 0), (1, 0), (10, 0), (1, 0), (10, 0), (1, 0), (1, 1), (10, 0), (0, 1), (10, 0)];

#[test]
fn pieces_cut_at_every_byte() {
    for (input, wanted) in [(LISTING, LISTED.as_bytes()), (EDGES, &output_of(EDGED))] {
        let bytes = input.as_bytes();
        same(&written_for_pieces(&[bytes]), wanted, "whole");
        for cut in 1..bytes.len() {
            same(&written_for_pieces(&[&bytes[..cut], &bytes[cut..]]), wanted, &format!("cut at {cut}"));
        }
        let single: Vec<&[u8]> = bytes.chunks(1).collect();
        same(&written_for_pieces(&single), wanted, "a byte at a time");
    }
}

/// Sessions that start and end in turn, lines of many lengths: a line lost or served twice changes answers and numbers.
fn starts_and_ends(pairs: u64) -> (String, Vec<u8>) {
    let mut input = "roles\nrun\n".to_string();
    for i in 0..pairs {
        input += &format!("start\t{}\t{}\t0\nend\t{}\n", i % 32, i % 61, i % 32);
    }
    (input, output_of((0..2 + 2 * pairs).map(|i| (1, u64::from(i > 1)))))
}

/// The rows of the last block, whose numbers have six digits, take more than a block of output.
#[test]
fn many_blocks() {
    let (input, wanted) = starts_and_ends(60_000);
    assert!(input.len() > 8 * BLOCK);
    assert!(lines_in(&input.as_bytes()[input.len() - BLOCK..]) * "100000\t1\t1\n".len() > BLOCK);
    same(&written_for_file(input.as_bytes()), &wanted, "a file");
    same(&written(input.as_bytes()), &wanted, "a pipe");
    for size in [1000, 4096, 65535, 65536] {
        let pieces: Vec<&[u8]> = input.as_bytes().chunks(size).collect();
        same(&written_for_pieces(&pieces), &wanted, &format!("pieces of {size}"));
    }
}

#[test]
fn many_reads() {
    let (input, wanted) = starts_and_ends(1000);
    let pieces: Vec<&[u8]> = input.as_bytes().chunks(1).collect();
    same(&written_for_pieces(&pieces), &wanted, "a byte at a time");
}

/// A block of newlines makes ten times as much output.
#[test]
fn more_output_than_a_block() {
    for count in [BLOCK / 8, BLOCK, 3 * BLOCK + 1] {
        let input = vec![b'\n'; count];
        let wanted = output_of((0..count).map(|_| (10, 0)));
        assert!(wanted.len() > BLOCK);
        same(&written_for_file(&input), &wanted, &format!("{count} newlines"));
    }
}

/// The border of the first two blocks at each place of the listing; the line before it is refused.
#[test]
fn lines_across_a_border_of_blocks() {
    let rows = rows(LISTING.as_bytes());
    let wanted = output_of(std::iter::once((10, 0)).chain(rows));
    for cut in 0..=LISTING.len() {
        let mut input = vec![b'x'; BLOCK - 1 - cut];
        input.push(b'\n');
        input.extend(LISTING.as_bytes());
        same(&written_for_file(&input), &wanted, &format!("border at {cut}"));
    }
}

/// Each row is there before the next line is sent.
#[test]
fn rows_come_with_their_lines() {
    let mut run = Run::on(Stdio::piped());
    let mut stdin = run.child.stdin.take().unwrap();
    let mut stdout = run.child.stdout.take().unwrap();
    assert_eq!(next(&mut stdout, HEADER.len()), HEADER);
    for (line, row) in LISTING.lines().zip(LISTED.lines().skip(1)) {
        writeln!(stdin, "{line}").unwrap();
        assert_eq!(next(&mut stdout, row.len() + 1), format!("{row}\n").as_bytes(), "{line}");
    }
    drop(stdin);
    run.end_well();
    assert_eq!(stdout.read(&mut [0]).unwrap(), 0);
}

#[test]
fn a_full_device() {
    for input in ["", "roles\n"] {
        let mut command = Command::new(program());
        let mut run = Run::of(command.stdin(Stdio::piped()).stdout(File::create("/dev/full").unwrap()));
        // the program ends without reading: a write may fail, and that is right
        let _ = run.child.stdin.take().unwrap().write_all(input.as_bytes());
        assert_eq!(run.end().stderr, COMPLAINT, "{input:?}");
    }
}

/// The program behind its header, its input, and its output, a socket that it may write to when nobody reads any more.
fn behind_the_header() -> (Run, ChildStdin, UnixStream) {
    let (near, far) = UnixStream::pair().unwrap();
    let mut shell = Command::new("sh");
    shell.args(["-c", "trap '' PIPE; exec \"$0\""]).arg(program());
    let mut run = Run::of(shell.stdin(Stdio::piped()).stdout(OwnedFd::from(far)));
    // the program's end of the socket is now its own
    drop(shell);
    let stdin = run.child.stdin.take().unwrap();
    assert_eq!(next(&near, HEADER.len()), HEADER);
    (run, stdin, near)
}

#[test]
fn a_row_that_cannot_be_written() {
    let (run, mut stdin, output) = behind_the_header();
    output.shutdown(Shutdown::Both).unwrap();
    stdin.write_all(b"roles\n").unwrap();
    drop(stdin);
    assert_eq!(run.end().stderr, COMPLAINT);
}

#[test]
fn a_last_row_that_cannot_be_written() {
    let (run, mut stdin, output) = behind_the_header();
    stdin.write_all(b"roles\nrun").unwrap();
    assert_eq!(next(&output, 6), b"1\t1\t0\n");
    output.shutdown(Shutdown::Both).unwrap();
    drop(stdin);
    assert_eq!(run.end().stderr, COMPLAINT);
}

/// A file that may not grow beyond a block of the shell's ulimit takes the first part of the rows.
#[test]
fn rows_of_which_a_part_is_written() {
    let (input, wanted) = starts_and_ends(200);
    let name = scratch("part");
    let mut shell = Command::new("sh");
    shell.args(["-c", "trap '' XFSZ; ulimit -f 1; exec \"$0\" > \"$1\""]).arg(program()).arg(&name);
    let mut run = Run::of(shell.stdin(Stdio::piped()));
    run.child.stdin.take().unwrap().write_all(input.as_bytes()).unwrap();
    assert_eq!(run.end().stderr, COMPLAINT);
    let part = std::fs::read(&name).unwrap();
    std::fs::remove_file(&name).unwrap();
    assert!(part.len() > HEADER.len() && part.len() < wanted.len(), "{}", part.len());
    same(&part, &wanted[..part.len()], "the part");
}

/// A socket that does not make the program wait: what it has no room for is not written, and that is said.
#[test]
fn output_that_does_not_wait() {
    let (input, wanted) = starts_and_ends(60_000);
    let (mut near, far) = UnixStream::pair().unwrap();
    far.set_nonblocking(true).unwrap();
    let run = Run::of(Command::new(program()).stdin(file_of(input.as_bytes())).stdout(OwnedFd::from(far)));
    assert_eq!(run.end().stderr, COMPLAINT);
    let mut part = Vec::new();
    near.read_to_end(&mut part).unwrap();
    assert!(part.len() > HEADER.len() && part.len() < wanted.len(), "{}", part.len());
    same(&part, &wanted[..part.len()], "the part");
}

#[test]
fn a_folder_as_input() {
    let output = Run::on(File::open("/").unwrap()).end();
    assert_eq!(output.stdout, HEADER);
    assert_eq!(output.stderr, COMPLAINT);
}

/// A failed read is no end of input: the line that was begun gets no row.
#[test]
fn input_that_fails_in_a_line() {
    let (mut near, far) = UnixStream::pair().unwrap();
    far.set_nonblocking(true).unwrap();
    near.write_all(b"roles\nrun").unwrap();
    let output = Run::on(OwnedFd::from(far)).end();
    assert_eq!(output.stdout, output_of([(1, 0)]));
    assert_eq!(output.stderr, COMPLAINT);
}
