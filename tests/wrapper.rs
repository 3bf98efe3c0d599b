//! `bin/guard` from outside: the exit status and the words that it makes of a run, and how it proves and builds.
//! Real here: `bin/guard`, the program, and flock. Stand-ins: `rt`, a script that writes the lines that rt writes and puts
//! a program in its place, so that nothing is proved; and where a test needs a signal, the program, a script too. Each test
//! has a repository of its own with three crates under target/wrapper/, which goes with it. `tests/run` compiles and runs it.
use std::ffi::OsStr;
use std::fs::{self, File};
use std::io::{BufRead, BufReader, Read, Write};
use std::os::unix::process::{CommandExt, ExitStatusExt};
use std::path::{Path, PathBuf};
use std::process::{Child, Command, Output, Stdio};
use std::thread::sleep;
use std::time::Duration;

const HEADER: &str = "line\tanswer\tspent\n";
const COMPLAINT: &str = "guard: not all was read and written\n";
const BUILDING: &str = "guard: proving and building what is not built yet; the first time takes some minutes\n";
const WAITING: &str = "guard: waiting for another copy that is proving and building the program\n";
const PROVED: &str = "guard: proved 1 of 3: bits\nguard: proved 2 of 3: lines\nguard: proved 3 of 3: guard\n";

/// Three crates of which the program is one, and one that it does not depend on.
const CRATES: &str = "# crates\nbits:\n\nlines: bits\nguard: lines io libc # other\nother: guard\n";
/// What the stand-in for rt does when all is proved: it puts the program in its place, says what rt says, and runs the program.
const PROVES: &str = "mkdir -p ../bits/out ../lines/out out; cp ../../real out/guard; \
for c in bits lines guard; do echo 'fn f: proved' >&2; echo 'library bits: modules loaded=1 checked=0' >&2; \
echo \"crate $c: modules loaded=2 checked=3\" >&2; echo 'logic=proved functions=1 sum=0' >&2; done; \
echo 'rt: running out/guard' >&2; echo row";
/// The same where nothing has changed: rt leaves the program as it is.
const UNCHANGED: &str = "echo 'rt: nothing has changed since the last proved build' >&2; echo row";

/// A repository with a stand-in for rt.
struct Repository(PathBuf);

/// No other crates.txt may lie below this repository's own when `rt ci` runs.
impl Drop for Repository {
    fn drop(&mut self) {
        let _ = fs::remove_dir_all(&self.0);
    }
}

impl Repository {
    /// One where nothing is built yet.
    fn new(name: &str) -> Repository {
        let root = std::env::current_dir().unwrap().join("target/wrapper").join(name);
        let _ = fs::remove_dir_all(&root);
        for folder in ["bin", "tools", "target/bin", "crates/bits/src", "crates/lines/src", "crates/guard/src"] {
            fs::create_dir_all(root.join(folder)).unwrap();
        }
        let r = Repository(root);
        copy("bin/guard", &r.at("bin/guard"));
        copy("target/bin/guard", &r.at("real"));
        fs::write(r.at("crates.txt"), CRATES).unwrap();
        for source in ["crates/bits/src/lib", "crates/bits/src/more", "crates/guard/src/main"] {
            fs::write(r.at(source), "").unwrap();
        }
        r.rt(PROVES);
        r
    }

    /// One where the program is built.
    fn built(name: &str) -> Repository {
        let r = Repository::new(name);
        assert_eq!(r.says(""), (0, HEADER.into(), format!("{BUILDING}{PROVED}")));
        assert_eq!(r.calls(), 1);
        r.rt("echo 'rt: must not run' >&2; exit 1");
        r
    }

    /// One where the program is another, a script.
    fn with_program(name: &str, script: &str) -> Repository {
        let r = Repository::new(name);
        script_at(&r.at("real"), script);
        r
    }

    fn at(&self, name: &str) -> PathBuf {
        self.0.join(name)
    }

    /// Sets what the stand-in for rt does; it counts its calls first.
    fn rt(&self, does: &str) {
        script_at(
            &self.at("tools/rt"),
            &format!("[ \"$*\" = run ] && [ \"${{PWD##*/}}\" = guard ] || exit 7; echo >> ../../calls; {does}"),
        );
    }

    fn calls(&self) -> usize {
        fs::read(self.at("calls")).map_or(0, |calls| calls.len())
    }

    /// `bin/guard` with the stand-in for rt on the path.
    fn command(&self) -> Command {
        let mut command = Command::new(self.at("bin/guard"));
        let path = format!("{}:{}", self.at("tools").display(), std::env::var("PATH").unwrap());
        command.env("PATH", path).stdin(Stdio::piped()).stdout(Stdio::piped()).stderr(Stdio::piped());
        command
    }

    /// Status, output and words of `bin/guard` on an input.
    fn says(&self, input: &str) -> (i32, String, String) {
        result(given(self.command().spawn().unwrap(), input).wait_with_output().unwrap())
    }

    /// Writes a file, later than all that was done before.
    fn write_later(&self, name: &str, text: &str) {
        sleep(Duration::from_millis(20));
        fs::write(self.at(name), text).unwrap();
    }
}

/// Runs a command of the shell on two words. Files that are to be run are written so: a thread that starts a program while
/// this one has the file open for writing would keep it busy.
fn shell(command: &str, first: &Path, second: impl AsRef<OsStr>) {
    assert!(Command::new("sh").args(["-c", command]).arg(first).arg(second).status().unwrap().success());
}

/// Puts a copy of a file there.
fn copy(from: impl AsRef<OsStr>, to: &Path) {
    shell("cp \"$1\" \"$0\"", to, from);
}

/// Puts a script there.
fn script_at(path: &Path, text: &str) {
    shell("printf '#!/bin/sh\\n%s\\n' \"$1\" > \"$0\" && chmod +x \"$0\"", path, text);
}

/// A run that got its whole input.
fn given(mut child: Child, input: &str) -> Child {
    // where the run ends without reading, the write may fail
    let _ = child.stdin.take().unwrap().write_all(input.as_bytes());
    child
}

fn result(output: Output) -> (i32, String, String) {
    let text = |bytes| String::from_utf8(bytes).unwrap();
    (output.status.code().expect("bin/guard itself is not killed"), text(output.stdout), text(output.stderr))
}

/// The next line that a run says on standard error.
fn next_said(child: &mut Child) -> String {
    let mut line = Vec::new();
    let mut byte = [0];
    while line.last() != Some(&b'\n') {
        child.stderr.as_mut().unwrap().read_exact(&mut byte).unwrap();
        line.push(byte[0]);
    }
    String::from_utf8(line).unwrap()
}

// ---- what comes of a run

#[test]
fn all_well() {
    let r = Repository::built("all_well");
    for name in ["floor", "brands"] {
        let input = fs::read_to_string(format!("examples/{name}.tsv")).unwrap();
        let output = fs::read_to_string(format!("examples/{name}.out")).unwrap();
        assert_eq!(r.says(&input), (0, output, String::new()), "{name}");
    }
}

#[test]
fn a_full_device() {
    let r = Repository::built("a_full_device");
    let child = r.command().stdout(File::create("/dev/full").unwrap()).spawn().unwrap();
    assert_eq!(result(given(child, "roles\n").wait_with_output().unwrap()), (1, String::new(), COMPLAINT.into()));
}

#[test]
fn a_folder_as_input() {
    let r = Repository::built("a_folder_as_input");
    let output = r.command().stdin(File::open("/").unwrap()).output().unwrap();
    assert_eq!(result(output), (1, HEADER.into(), COMPLAINT.into()));
}

/// More output than a pipe holds, of which one line is read.
fn cut_short(mut command: Command) -> (i32, String, String) {
    let mut child = command.spawn().unwrap();
    let mut stdin = child.stdin.take().unwrap();
    let sender = std::thread::spawn(move || stdin.write_all(&vec![b'\n'; 1_000_000]));
    let mut line = String::new();
    BufReader::with_capacity(1, child.stdout.take().unwrap()).read_line(&mut line).unwrap();
    let output = child.wait_with_output().unwrap();
    let _ = sender.join().unwrap();
    let (status, _, said) = result(output);
    (status, line, said)
}

/// As any program that a closed pipe ends: no word, and the status of the signal.
#[test]
fn a_closed_pipe() {
    let r = Repository::built("a_closed_pipe");
    assert_eq!(cut_short(r.command()), (128 + 13, HEADER.into(), String::new()));
}

/// Where the caller has the signal of a closed pipe ignored, the write fails.
#[test]
fn a_closed_pipe_without_its_signal() {
    let r = Repository::built("a_closed_pipe_without_its_signal");
    let mut shell = Command::new("sh");
    shell.args(["-c", "trap '' PIPE; exec \"$0\""]).arg(r.at("bin/guard"));
    shell.stdin(Stdio::piped()).stdout(Stdio::piped()).stderr(Stdio::piped());
    assert_eq!(cut_short(shell), (1, HEADER.into(), COMPLAINT.into()));
}

/// A status is made also where nobody hears the words.
#[test]
fn words_that_cannot_be_written() {
    let r = Repository::built("words_that_cannot_be_written");
    for closed in ["2>&-", "2>/dev/full"] {
        let script = format!("exec \"$0\" < / {closed}");
        let output = Command::new("sh").args(["-c", &script]).arg(r.at("bin/guard")).output().unwrap();
        assert_eq!(result(output), (1, HEADER.into(), String::new()), "{closed}");
    }
}

#[test]
fn no_output_at_all() {
    let r = Repository::built("no_output_at_all");
    let output =
        Command::new("sh").args(["-c", "exec \"$0\" < /dev/null >&-"]).arg(r.at("bin/guard")).output().unwrap();
    let (status, _, said) = result(output);
    assert_ne!(status, 0);
    assert_ne!(said, "");
}

/// Signals that no caller has a program ignore, as a shell does with INT for what it runs in the background.
#[test]
fn signals() {
    for (name, number) in [("TERM", 15), ("KILL", 9), ("SEGV", 11)] {
        let r = Repository::with_program(&format!("signals-{name}"), &format!("echo row; kill -{name} $$"));
        r.says("");
        assert_eq!(r.says(""), (128 + number, "row\n".into(), format!("guard: ended by signal {number}\n")), "{name}");
        let r = Repository::with_program(&format!("signals-{name}"), &format!("echo why >&2; kill -{name} $$"));
        r.says("");
        let said = format!("why\nguard: ended by signal {number}\n");
        assert_eq!(r.says(""), (128 + number, String::new(), said), "{name}, with words");
    }
}

#[test]
fn a_status_of_its_own() {
    let r = Repository::with_program("a_status_of_its_own", "echo row; exit 5");
    r.says("");
    assert_eq!(r.says(""), (5, "row\n".into(), String::new()));
}

/// A row is there before the next line is sent, as without `bin/guard`.
#[test]
fn rows_come_with_their_lines() {
    let r = Repository::built("rows_come_with_their_lines");
    let mut child = r.command().spawn().unwrap();
    let mut stdin = child.stdin.take().unwrap();
    let mut stdout = BufReader::new(child.stdout.take().unwrap());
    for (line, row) in [("", HEADER), ("roles\n", "1\t1\t0\n"), ("run\n", "2\t1\t0\n")] {
        stdin.write_all(line.as_bytes()).unwrap();
        let mut got = String::new();
        stdout.read_line(&mut got).unwrap();
        assert_eq!(got, row);
    }
    drop(stdin);
    assert_eq!(result(child.wait_with_output().unwrap()), (0, String::new(), String::new()));
}

// ---- proving and building

/// Built once, and not again.
#[test]
fn built_once() {
    let r = Repository::built("built_once");
    for _ in 0..2 {
        assert_eq!(r.says("roles\n"), (0, format!("{HEADER}1\t1\t0\n"), String::new()));
    }
    assert_eq!(r.calls(), 1);
}

/// rt reads nothing of the transcript.
#[test]
fn input_is_left_to_the_program() {
    let r = Repository::new("input_is_left_to_the_program");
    r.rt(&format!("cat > /dev/null; {PROVES}"));
    assert_eq!(r.says("roles\n").1, format!("{HEADER}1\t1\t0\n"));
}

/// Each way in which something can be left to build; only the first time something is proved.
#[test]
fn built_again() {
    let r = Repository::built("built_again");
    r.rt(UNCHANGED);
    let again = |what: &str| {
        let calls = r.calls();
        assert_eq!(r.says(""), (0, HEADER.into(), BUILDING.into()), "{what}");
        assert_eq!(r.says(""), (0, HEADER.into(), String::new()), "after {what}");
        assert_eq!(r.calls(), calls + 1, "{what}");
    };
    r.write_later("crates/bits/src/lib", "changed");
    again("a source changed");
    r.write_later("crates.txt", CRATES);
    again("crates.txt changed");
    sleep(Duration::from_millis(20));
    fs::remove_file(r.at("crates/bits/src/more")).unwrap();
    again("a source gone");
    sleep(Duration::from_millis(20));
    copy(r.at("real"), &r.at("target/bin/guard"));
    again("another program in its place");
}

/// What rt has built is put in its place again.
#[test]
fn a_program_that_is_gone() {
    let r = Repository::built("a_program_that_is_gone");
    fs::remove_file(r.at("target/bin/guard")).unwrap();
    r.rt(UNCHANGED);
    assert_eq!(r.says(""), (0, HEADER.into(), BUILDING.into()));
    assert_eq!(r.says(""), (0, HEADER.into(), String::new()));
    assert_eq!(r.calls(), 2);
}

/// Where rt fails, its words are told, nothing is read, and what it left counts as unbuilt.
#[test]
fn a_failed_build() {
    let r = Repository::built("a_failed_build");
    let fails =
        "cp ../../real out/guard; for line in 'crate bits: modules loaded=2 checked=3' 'logic=proved functions=1' \
                 'logic=not-proved'; do echo \"$line\" >&2; done; exit 1";
    r.rt(fails);
    r.write_later("crates/guard/src/main", "changed");
    let said = format!(
        "{BUILDING}guard: proved 1 of 3: bits\ncrate bits: modules loaded=2 checked=3\nlogic=proved functions=1\n\
         logic=not-proved\nguard: rt run ended with status 1\n"
    );
    for _ in 0..2 {
        assert_eq!(r.says("roles\n"), (2, String::new(), said.clone()));
    }
    r.rt(PROVES);
    assert_eq!(r.says(""), (0, HEADER.into(), format!("{BUILDING}{PROVED}")));
}

#[test]
fn no_program_made() {
    let r = Repository::new("no_program_made");
    r.rt(UNCHANGED);
    for _ in 0..2 {
        let said = format!("{BUILDING}guard: rt run made no crates/guard/out/guard\n");
        assert_eq!(r.says(""), (2, String::new(), said));
    }
}

/// What is changed while it is built is built at the next run.
#[test]
fn a_source_changed_meanwhile() {
    let r = Repository::new("a_source_changed_meanwhile");
    r.rt(&format!("sleep 0.05; touch ../bits/src/lib; sleep 0.05; {PROVES}"));
    assert_eq!(r.says("").0, 0);
    assert_eq!(r.calls(), 1);
    r.rt(UNCHANGED);
    assert_eq!(r.says(""), (0, HEADER.into(), BUILDING.into()));
    assert_eq!(r.says(""), (0, HEADER.into(), String::new()));
    assert_eq!(r.calls(), 2);
}

/// The lock is held by hand; when it is let go, there is nothing left to build.
#[test]
fn waiting_for_another_copy() {
    let r = Repository::new("waiting_for_another_copy");
    let mut holder = Command::new("flock")
        .arg(r.at("target/guard.lock"))
        .args(["sh", "-c", "echo; cat > /dev/null"])
        .stdin(Stdio::piped())
        .stdout(Stdio::piped())
        .spawn()
        .unwrap();
    holder.stdout.as_mut().unwrap().read_exact(&mut [0]).unwrap();
    let mut child = r.command().spawn().unwrap();
    assert_eq!(next_said(&mut child), WAITING);
    shell("cp \"$1\" \"$0/target/bin/guard\" && touch \"$0/target/guard.built\"", &r.0, r.at("real"));
    drop(holder.stdin.take());
    assert!(holder.wait().unwrap().success());
    assert_eq!(
        result(given(child, "roles\n").wait_with_output().unwrap()),
        (0, format!("{HEADER}1\t1\t0\n"), String::new())
    );
    assert_eq!(r.calls(), 0);
}

/// Two copies on a repository where nothing is built: one builds, the other waits, both answer.
#[test]
fn two_copies_at_once() {
    let r = Repository::new("two_copies_at_once");
    r.rt(&format!("sleep 0.5; {PROVES}"));
    let first = given(r.command().spawn().unwrap(), "roles\n");
    let second = given(r.command().spawn().unwrap(), "lattice\n\n");
    let first = result(first.wait_with_output().unwrap());
    let second = result(second.wait_with_output().unwrap());
    assert_eq!((first.0, first.1), (0, format!("{HEADER}1\t1\t0\n")));
    assert_eq!((second.0, second.1), (0, format!("{HEADER}1\t1\t0\n2\t10\t0\n")));
    let mut said = [first.2, second.2];
    said.sort();
    assert_eq!(said, [format!("{BUILDING}{PROVED}"), WAITING.into()]);
    assert_eq!(r.calls(), 1);
}

/// The lock of a run that was killed while it built holds nobody up, and nothing that it left counts as built.
#[test]
fn a_killed_build() {
    let r = Repository::new("a_killed_build");
    r.rt("mkdir out; cp ../../real out/guard; exec sleep 1000");
    let mut killed = r.command().process_group(0).spawn().unwrap();
    assert_eq!(next_said(&mut killed), BUILDING);
    while !r.at("crates/guard/out/guard").exists() {
        sleep(Duration::from_millis(5));
    }
    let group = format!("-{}", killed.id());
    assert!(Command::new("kill").args(["-9", "--", &group]).status().unwrap().success());
    assert_eq!(killed.wait().unwrap().signal(), Some(9));
    let free = Command::new("flock").args(["-w", "10"]).arg(r.at("target/guard.lock")).arg("true").status().unwrap();
    assert!(free.success());
    r.rt(PROVES);
    assert_eq!(r.says(""), (0, HEADER.into(), format!("{BUILDING}{PROVED}")));
}

/// The tools that `bin/guard` needs, alone on a path with those of the repository; returns the path.
fn alone(r: &Repository, more: &[&str]) -> PathBuf {
    for tool in ["awk", "cat", "cp", "dirname", "find", "head", "mkdir", "mv", "sh", "touch"].iter().chain(more) {
        let found = Command::new("sh").args(["-c", &format!("command -v {tool}")]).output().unwrap().stdout;
        let found = String::from_utf8(found).unwrap();
        std::os::unix::fs::symlink(found.trim_end(), r.at("tools").join(tool)).unwrap();
    }
    r.at("tools")
}

/// Without flock nothing is built, and a built program runs.
#[test]
fn no_flock() {
    let r = Repository::new("no_flock");
    let path = alone(&r, &[]);
    let output = r.command().env("PATH", &path).output().unwrap();
    assert_eq!(result(output), (2, String::new(), "guard: building needs flock, of util-linux\n".into()));
    assert_eq!(r.says("").0, 0);
    let output = r.command().env("PATH", &path).stdin(Stdio::null()).output().unwrap();
    assert_eq!(result(output), (0, HEADER.into(), String::new()));
}

/// Without rt nothing is built.
#[test]
fn no_rt() {
    let r = Repository::new("no_rt");
    fs::remove_file(r.at("tools").join("rt")).unwrap();
    let output = r.command().env("PATH", alone(&r, &["flock"])).output().unwrap();
    assert_eq!(result(output), (2, String::new(), "guard: building needs rt, the Rattle toolchain\n".into()));
}
