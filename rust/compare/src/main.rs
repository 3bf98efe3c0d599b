//! `compare long SECONDS [SEED]`: random cases of every kind for so long, with progress on standard error.
//! `compare count ROUNDS [SEED]`: how many of so many cases of each kind tell two guards apart.
//! `compare caught ROUNDS [SEED]`: the first round of one case of each kind in which a case does; a failure where none does.
//! `compare replay FILE`: a case as it was printed, or a transcript, once more.
//! `compare turns`: the wrong turns that are built into the second implementation, none but in the program of `rust/wrong-turns`.

use compare::{
    check, check_transcript, compare, damaged, difference, likeness, links, random_transcript, readers, requests,
    set_ups, tallies, Case, Layer, Random, Reached, Reader, GUARDS,
};
use std::process::ExitCode;
use std::time::{Duration, Instant};

const USAGE: &str =
    "usage: compare long SECONDS [SEED] | count ROUNDS [SEED] | caught ROUNDS [SEED] | replay FILE | turns";

fn main() -> ExitCode {
    let arguments: Vec<String> = std::env::args().skip(1).collect();
    let words: Vec<&str> = arguments.iter().map(String::as_str).collect();
    let outcome = match words[..] {
        ["long", seconds] => long(seconds, "1"),
        ["long", seconds, seed] => long(seconds, seed),
        ["count", rounds] => count(rounds, "1"),
        ["count", rounds, seed] => count(rounds, seed),
        ["caught", rounds] => caught(rounds, "1"),
        ["caught", rounds, seed] => caught(rounds, seed),
        ["replay", file] => replay(file),
        ["turns"] => Ok(reference::TURNS.join("\n")),
        _ => Err(USAGE.to_string()),
    };
    match outcome {
        Ok(said) => {
            println!("{said}");
            ExitCode::SUCCESS
        }
        Err(failure) => {
            eprintln!("{failure}");
            ExitCode::FAILURE
        }
    }
}

fn number(text: &str) -> Result<u64, String> {
    text.parse().map_err(|_| USAGE.to_string())
}

/// Rounds of one case of each kind, each round from a seed of its own, until the time is over.
fn long(seconds: &str, seed: &str) -> Result<String, String> {
    let (length, first) = (Duration::from_secs(number(seconds)?), number(seed)?);
    let (begin, mut said) = (Instant::now(), Instant::now());
    let (mut reached, readers) = (Reached::default(), readers());
    let mut seed = first;
    while begin.elapsed() < length {
        let mut random = Random::new(seed);
        let told = |failure: String| format!("seed {seed}: {failure}");
        for (_, make) in KINDS {
            check(&make(&mut random), &mut reached).map_err(told)?;
        }
        check_transcript(&random_transcript(&mut random), &readers, &mut reached).map_err(told)?;
        seed = seed.wrapping_add(1);
        if said.elapsed() > Duration::from_secs(10) {
            said = Instant::now();
            eprintln!("{} s: seed {seed}, {} answers compared", begin.elapsed().as_secs(), reached.total());
        }
    }
    let guards: Vec<&str> = GUARDS.iter().map(|guard| guard.name).collect();
    Ok(format!("no difference: {} answers, seeds {first} to {seed}, {}", reached.total(), guards.join(", ")))
}

type Make = fn(&mut Random) -> Case;

/// The kinds of cases.
const KINDS: [(&str, Make); 7] = [
    ("role requests", |random| requests(random, Layer::Roles)),
    ("links", links),
    ("label requests", |random| requests(random, Layer::Labels)),
    ("damaged tables", damaged),
    ("set-ups", set_ups),
    ("likeness", likeness),
    ("tallies", tallies),
];

/// The kinds whose case of a round, which its seed makes, tells two guards apart.
fn apart(seed: u64, readers: &[Reader]) -> Vec<&'static str> {
    let (mut random, mut reached) = (Random::new(seed), Reached::default());
    let differs = |(_, make): &(_, Make)| compare(&make(&mut random), GUARDS, &mut reached).is_err();
    let mut kinds: Vec<&str> = KINDS.into_iter().filter(differs).map(|(kind, _)| kind).collect();
    if difference(&random_transcript(&mut random), readers).is_some() {
        kinds.push("transcripts");
    }
    kinds
}

/// The first of so many rounds with a case that tells two guards apart, and its kinds; an error where there is none.
fn caught(rounds: &str, seed: &str) -> Result<String, String> {
    let (rounds, first, readers) = (number(rounds)?, number(seed)?, readers());
    let mut found = (first..first + rounds).map(|seed| (seed, apart(seed, &readers)));
    let found = found.find(|(_, kinds)| !kinds.is_empty());
    let said = found.map(|(seed, kinds)| format!("seed {seed}: {}", kinds.join(", ")));
    said.ok_or_else(|| format!("no case of {rounds} rounds tells two guards apart"))
}

/// Counts the cases of each kind that tell two guards apart.
fn count(rounds: &str, seed: &str) -> Result<String, String> {
    let (rounds, first, readers) = (number(rounds)?, number(seed)?, readers());
    let found: Vec<&str> = (first..first + rounds).flat_map(|seed| apart(seed, &readers)).collect();
    let kinds = KINDS.iter().map(|(kind, _)| *kind).chain(["transcripts"]);
    let counts = kinds.map(|kind| format!("{kind} {}", found.iter().filter(|found| **found == kind).count()));
    Ok(format!("of {rounds} cases of each kind differ: {}", counts.collect::<Vec<String>>().join(", ")))
}

/// A case, and where no line of it is beyond a transcript the transcript too.
fn replay(file: &str) -> Result<String, String> {
    let bytes = std::fs::read(file).map_err(|error| format!("{file}: {error}"))?;
    let text = String::from_utf8_lossy(&bytes);
    let mut reached = Reached::default();
    if !text.lines().any(|line| line.starts_with('!')) {
        check_transcript(&bytes, &readers(), &mut reached)?;
    }
    if let Ok(case) = text.parse::<Case>() {
        check(&case, &mut reached)?;
    }
    Ok(format!("no difference: {} answers", reached.total()))
}
