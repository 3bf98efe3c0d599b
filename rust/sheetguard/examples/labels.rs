//! How two labels stand and why, in a sentence for the desk that sets them. Labels are taken two by two; without any, there
//! is a sentence of each kind, as in the project's `examples/labels.out`.
//!
//! `cargo run --offline -p sheetguard --example labels -- 17 18`

use sheetguard::{Label, Standing};
use std::process::ExitCode;

/// Pairs that show each kind of sentence.
const PAIRS: &str = "20 20  9 1  31 0  27 17  15 9  12 8  17 25  0 31  17 27  9 15  8 12  17 18  10 1  8 7  1 24";

/// The brand sets that are not empty, by their words from 1 on.
const BRANDS: [&str; 7] =
    ["brand 1", "brand 2", "brands 1 and 2", "brand 3", "brands 1 and 3", "brands 2 and 3", "all three brands"];

fn main() -> ExitCode {
    let given: Vec<String> = std::env::args_os().skip(1).map(|word| word.to_string_lossy().into()).collect();
    let own = || PAIRS.split_whitespace().map(String::from).collect();
    let words = if given.is_empty() { own() } else { given };
    match words.chunks(2).map(of_words).collect::<Result<Vec<String>, String>>() {
        Ok(sentences) => {
            println!("{}", sentences.join("\n"));
            ExitCode::SUCCESS
        }
        Err(fault) => {
            eprintln!("{fault}");
            ExitCode::FAILURE
        }
    }
}

/// The sentence of two words, or what is wrong with them.
fn of_words(pair: &[String]) -> Result<String, String> {
    match pair {
        [first, second] => Ok(sentence(label(first)?, label(second)?)),
        _ => Err("a label is missing: name two, as in 17 18".to_string()),
    }
}

/// The label of a word.
fn label(word: &str) -> Result<Label, String> {
    let label = word.parse().ok().and_then(|number| Label::new(number).ok());
    label.ok_or(format!("{word:?} is no label: a label is a number from 0 to 31"))
}

/// How the first label stands to the second, and why.
fn sentence(first: Label, second: Label) -> String {
    let (one, other) = (described(first), described(second));
    match first.stands(second) {
        Standing::Equal => format!("{one}, and {other}, are equal: both have the same class and the same brands"),
        Standing::Above => format!("{one}, stands above {other}: {}", why_ordered(first, second)),
        Standing::Below => format!("{one}, stands below {other}: {}", why_ordered(first, second)),
        Standing::Apart => format!("{one}, and {other}, stand apart: {}", why_apart(first, second)),
    }
}

/// The number, the class and the brands.
fn described(label: Label) -> String {
    let brands = match label.brands() {
        0 => "without brands".to_string(),
        brands => format!("with {}", BRANDS[brands as usize - 1]),
    };
    format!("{}, class {} {brands}", label.number(), label.class())
}

/// Why one of two labels is above the other.
fn why_ordered(first: Label, second: Label) -> String {
    let (upper, lower) = if first > second { (first, second) } else { (second, first) };
    let class = match upper.class() == lower.class() {
        true => "both have the same class".to_string(),
        false => format!("{} has the higher class", upper.number()),
    };
    let brands = match lower.brands() {
        0 => format!("{} has no brands", lower.number()),
        brands if brands == upper.brands() => "both have the same brands".to_string(),
        _ => format!("{} has all brands that {} has, and more", upper.number(), lower.number()),
    };
    format!("{class}, and {brands}")
}

/// Why neither of two labels is above the other.
fn why_apart(first: Label, second: Label) -> String {
    let lacking = |one: Label, other: Label| other.brands() & !one.brands();
    if lacking(first, second) != 0 && lacking(second, first) != 0 {
        return "neither has all brands of the other".to_string();
    }
    let (higher, lower) = if first.class() > second.class() { (first, second) } else { (second, first) };
    let brands = BRANDS[lacking(higher, lower) as usize - 1];
    format!("{} has the higher class but lacks {brands}, which {} has", higher.number(), lower.number())
}
