//! The speed of the guards side by side, as a table in Markdown: `bench [ROUNDS]`. `bench instructions` is for
//! `bench/instructions`, which has the instructions of calls counted.
//!
//! All rows are measured on every guard in turn, and this several times over, so that what else the machine does meets all
//! of them alike; a cell has the minimum and the median. The soundness test is measured through a role request of
//! code 0, which is refused straight after it.

mod calls;
mod instructions;
mod measure;
mod tables;
mod transcripts;

use measure::{Guards, Times};

fn main() -> std::io::Result<()> {
    let word = std::env::args().nth(1).unwrap_or_default();
    if word == "instructions" {
        instructions::make_calls();
        return Ok(());
    }
    let rounds = word.parse().unwrap_or(45);
    let guards = Guards::all();
    println!("{rounds} rounds; nanoseconds a call, minimum / median\n");
    let measured = if guards.proved.is_some() { "proved" } else { "(b)" };
    println!("| row | proved | (b) plain | (a) second | (c) read | proved / (b) | (a) / {measured} |");
    println!("|---|---|---|---|---|---|---|");
    let read = measure::plain_read(rounds);
    let rows = calls::rows();
    for (row, times) in rows.iter().zip(guards.measure(&rows, rounds)) {
        println!("{}", line(row.name, &times, &read.to_string()));
    }
    println!("\ntranscripts of a million lines; millions of lines a second, minimum / median time\n");
    println!("| mode | guard | (b) plain | (a) second | `wc -l` | guard / (b) | guard's peak memory |");
    println!("|---|---|---|---|---|---|---|");
    transcripts::report(rounds.min(9))
}

/// A row of the table; without the proved guard the last ratio has the plain one in its place.
fn line(name: &str, times: &measure::Row, read: &str) -> String {
    let cell = |times: &Option<Times>| times.as_ref().map_or("-".to_string(), Times::to_string);
    let ratio = |one: &Option<Times>, other: &Option<Times>| match (one, other) {
        (Some(one), Some(other)) => format!("{:.2}", one.minimum() / other.minimum()),
        _ => "-".to_string(),
    };
    let measured = if times.proved.is_some() { &times.proved } else { &times.plain };
    format!(
        "| {name} | {} | {} | {} | {read} | {} | {} |",
        cell(&times.proved),
        cell(&times.plain),
        cell(&times.second),
        ratio(&times.proved, &times.plain),
        ratio(&times.second, measured),
    )
}
