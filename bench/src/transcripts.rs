//! Transcripts of a million lines through the programs.

use crate::measure::Times;
use compare::{worded_requests, Layer, Random};
use std::fs::{self, File};
use std::io::{self, Write};
use std::path::{Path, PathBuf};
use std::process::{Command, Stdio};
use std::time::Instant;

const LINES: usize = 1_000_000;
/// The second implementation reads this part of the lines.
const PART: usize = 20_000;

/// Writes a row for each mode.
pub fn report(rounds: usize) -> io::Result<()> {
    let here = std::env::current_exe()?;
    let beside = |name: &str| here.with_file_name(name);
    let guard = std::env::var_os("SHEETGUARD_PROGRAM").map(PathBuf::from);
    for layer in Layer::ALL {
        let mode = layer.mode();
        let text = worded_requests(&mut Random::new(11), layer, LINES).to_string();
        let lines: Vec<&str> = text.lines().filter(|line| !line.starts_with('!')).take(LINES).collect();
        let (whole, part) = (write(mode, &lines)?, write(&format!("{mode}-part"), &lines[..PART])?);
        let plain = time(rounds, &whole, lines.len(), Command::new(beside("plain")))?;
        let second = time(3, &part, PART, Command::new(beside("reference")))?;
        let mut counts = Command::new("wc");
        counts.arg("-l");
        let count = time(rounds, &whole, lines.len(), counts)?;
        let own = guard.as_ref().map(|path| time(rounds, &whole, lines.len(), Command::new(path))).transpose()?;
        let memory = guard.as_ref().map(|path| peak_memory(path, &whole)).transpose()?;
        let shown = own.as_ref().map_or("-".to_string(), speed);
        let ratio = own.map_or("-".to_string(), |own| format!("{:.2}", own.minimum() / plain.minimum()));
        let memory = memory.unwrap_or("-".to_string());
        println!(
            "| {mode} | {shown} | {} | {} | {} | {ratio} | {memory} |",
            speed(&plain),
            speed(&second),
            speed(&count)
        );
        [whole, part].iter().try_for_each(fs::remove_file)?;
    }
    Ok(())
}

fn write(name: &str, lines: &[&str]) -> io::Result<PathBuf> {
    let path = std::env::temp_dir().join(format!("sheetguard-bench-{}-{name}", std::process::id()));
    fs::write(&path, lines.join("\n") + "\n")?;
    Ok(path)
}

/// Nanoseconds a line.
fn time(rounds: usize, input: &Path, lines: usize, mut command: Command) -> io::Result<Times> {
    let mut run = || -> io::Result<f64> {
        command.stdin(File::open(input)?).stdout(Stdio::null());
        let begin = Instant::now();
        let status = command.status()?;
        let taken = begin.elapsed().as_nanos() as f64 / lines as f64;
        if status.success() {
            Ok(taken)
        } else {
            Err(io::Error::other(format!("{command:?}: {status}")))
        }
    };
    Ok(Times::new((0..rounds.max(1)).map(|_| run()).collect::<io::Result<_>>()?))
}

/// Millions of lines a second.
fn speed(times: &Times) -> String {
    format!("{:.2} / {:.2}", 1000.0 / times.minimum(), 1000.0 / times.median())
}

/// The most memory that the program has had when it has read the whole input.
fn peak_memory(program: &Path, input: &Path) -> io::Result<String> {
    let mut child = Command::new(program).stdin(Stdio::piped()).stdout(Stdio::null()).spawn()?;
    let mut stdin = child.stdin.take().ok_or(io::ErrorKind::BrokenPipe)?;
    stdin.write_all(&fs::read(input)?)?;
    let status = fs::read_to_string(format!("/proc/{}/status", child.id()))?;
    drop(stdin);
    child.wait()?;
    let peak = status.lines().find_map(|line| line.strip_prefix("VmHWM:"));
    Ok(peak.unwrap_or("not known").trim().to_string())
}
