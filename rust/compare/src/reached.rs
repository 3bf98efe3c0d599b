//! Which answers and refusals were reached, and which have to be.

use crate::case::Step;
use crate::words::{Layer, Word, ASSIGNMENT_NO, OTHER_CALLS};
use std::collections::BTreeMap;

/// How often each answer was reached: the call or the line, and its numbers.
#[derive(Clone, Debug, Default)]
pub struct Reached(BTreeMap<String, u64>);

impl Reached {
    fn count(&mut self, what: String) {
        *self.0.entry(what).or_default() += 1;
    }

    /// Counts the answers of a step.
    pub fn step(&mut self, step: &Step, answers: &[u64]) {
        let call = match step {
            Step::RoleSetup { .. } => "role set-up",
            Step::LabelSetup { .. } => "label set-up",
            Step::Permissions(_) => "permissions",
            Step::Authorised(_) => "authorised",
            Step::Tallied(_) => "tallied open",
            Step::Statement(_) => "statement",
            Step::Alike => "alike",
            Step::Role([code, ..]) => return self.count(request_answer(Layer::Roles, *code, [answers[0], 0])),
            Step::Label([code, ..]) => {
                return self.count(request_answer(Layer::Labels, *code, [answers[0], answers[1]]))
            }
            Step::Put(..) | Step::Flip(..) | Step::Count(..) | Step::Length(_) | Step::Keep | Step::Restore => return,
        };
        answers.iter().for_each(|answer| self.count(format!("{call}: {answer}")));
    }

    /// Counts the answer and spent of a transcript's line; no mode where no mode word was accepted before it.
    pub fn line(&mut self, mode: Option<Layer>, line: &str, answer: [u64; 2]) {
        let mut pieces = line.split('\t');
        let name = pieces.next().unwrap_or_default();
        let is_number = |field: &str| field.parse::<u64>().is_ok_and(|number| number.to_string() == field);
        let fields = pieces.clone().all(is_number).then(|| pieces.count());
        let known = fields.filter(|fields| Layer::ALL.iter().any(|layer| layer.has(name, *fields)));
        self.count(line_answer(mode, name, known, answer));
    }

    pub fn merge(&mut self, other: &Reached) {
        for (what, times) in &other.0 {
            *self.0.entry(what.clone()).or_default() += times;
        }
    }

    /// Those of the list that were not reached.
    pub fn missing<'a>(&self, all: &'a [String]) -> Vec<&'a String> {
        all.iter().filter(|what| !self.0.contains_key(*what)).collect()
    }

    /// How many answers were compared.
    pub fn total(&self) -> u64 {
        self.0.values().sum()
    }
}

/// The answer of a request, a label request's with spent; codes over the last count as one.
fn request_answer(layer: Layer, code: u64, [answer, spent]: [u64; 2]) -> String {
    let code = code.min(layer.codes() + 1);
    match layer {
        Layer::Roles => format!("role {code}: {answer}"),
        Layer::Labels => format!("label {code}: {answer} {spent}"),
    }
}

/// The answer of a line in a mode: of a word with so many numbers, or of one that no mode has so.
fn line_answer(mode: Option<Layer>, name: &str, fields: Option<usize>, [answer, spent]: [u64; 2]) -> String {
    let mode = mode.map_or("no mode", Layer::mode);
    let fields = fields.map_or("of wrong form".to_string(), |fields| format!("with {fields} fields"));
    format!("{mode}: {name} {fields}: {answer} {spent}")
}

/// Every answer and refusal of every call on a table or a tally.
pub fn every_call() -> Vec<String> {
    let mut all = Vec::new();
    for (call, answers) in OTHER_CALLS {
        all.extend(answers.iter().map(|answer| format!("{call}: {answer}")));
    }
    for layer in Layer::ALL {
        let tables: &[[u64; 2]] = match layer {
            Layer::Roles => &[[12, 0], [13, 0]],
            Layer::Labels => &[[12, 0], [13, 0], [14, 0]],
        };
        for code in 0..=layer.codes() + 1 {
            let own = layer.request(code).map_or(vec![[15, 0]], |word| [word.answers, &[[16, 0]]].concat());
            all.extend(own.iter().chain(tables).map(|answer| request_answer(layer, code, *answer)));
        }
    }
    let (code, answer) = ASSIGNMENT_NO;
    all.push(request_answer(Layer::Roles, code, answer));
    all
}

/// Every answer with spent of every word of either mode: before a mode is chosen, and in each mode.
pub fn every_transcript() -> Vec<String> {
    let mut all = Vec::new();
    for mode in [None, Some(Layer::Roles), Some(Layer::Labels)] {
        for layer in Layer::ALL {
            let answer = if mode.is_none() { [1, 0] } else { [11, 0] };
            all.push(line_answer(mode, layer.mode(), Some(0), answer));
            all.push(line_answer(mode, layer.mode(), None, [10, 0]));
            for word in layer.words() {
                let answer = |answer| line_answer(mode, word.name, Some(word.fields.len()), answer);
                if mode == Some(layer) {
                    all.extend(answers(word).into_iter().map(answer));
                    all.push(line_answer(mode, word.name, None, [10, 0]));
                } else if !mode.is_some_and(|mode| mode.has(word.name, word.fields.len())) {
                    all.push(answer([10, 0]));
                }
            }
        }
    }
    all
}

/// Every answer of a word of the mode in its form: its own, out of place, and with values out of range.
fn answers(word: &Word) -> Vec<[u64; 2]> {
    let out_of_range = if word.code.is_some() { [16, 0] } else { [19, 0] };
    let range: &[[u64; 2]] = if word.fields.is_empty() { &[] } else { &[out_of_range] };
    [word.answers, &[[11, 0]], range].concat()
}
