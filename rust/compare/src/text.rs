//! Cases as text. A set-up at the start and the requests of its mode are the lines of a transcript; what no transcript
//! can say stands on lines of its own, which begin with an exclamation mark.

use crate::case::{Case, Step};
use crate::words::Layer;
use std::fmt::{self, Display, Formatter};
use std::str::FromStr;

/// The members of a word.
pub fn members(word: u64) -> impl Iterator<Item = u64> {
    (0..64).filter(move |member| word >> member & 1 == 1)
}

/// The lines of a set-up that a transcript can say, without their `run`.
fn setup_lines(step: &Step) -> Option<Vec<String>> {
    match step {
        Step::RoleSetup { juniors, permissions } if (juniors.len(), permissions.len()) == (64, 8) => {
            let rows = |word: &'static str, list: &[u64]| -> Vec<String> {
                let row = |(at, set): (usize, &u64)| members(*set).map(move |member| format!("{word}\t{at}\t{member}"));
                list.iter().enumerate().flat_map(row).collect()
            };
            Some([vec![Layer::Roles.mode().to_string()], rows("above", juniors), rows("permit", permissions)].concat())
        }
        Step::LabelSetup { clearances, labels } if (clearances.len(), labels.len()) == (64, 64) => {
            let rows = |word: &'static str, list: &[u8]| -> Vec<String> {
                let named = list.iter().enumerate().filter(|(_, label)| **label != 0);
                named.map(|(at, label)| format!("{word}\t{at}\t{label}")).collect()
            };
            let fits = clearances.iter().chain(labels).all(|label| *label < 32);
            fits.then(|| {
                [vec![Layer::Labels.mode().to_string()], rows("clear", clearances), rows("label", labels)].concat()
            })
        }
        _ => None,
    }
}

/// A request as a line, where it has a word and every argument that is not listed is 0.
fn request_line(layer: Layer, [code, a, b, c]: [u64; 4]) -> Option<String> {
    let word = layer.request(code).filter(|_| code <= layer.worded())?;
    let arguments = [a, b, c];
    let (listed, unlisted) = arguments.split_at(word.fields.len());
    unlisted.iter().all(|argument| *argument == 0).then(|| tabbed(word.name, listed))
}

fn tabbed<T: Display>(word: &str, numbers: &[T]) -> String {
    numbers.iter().fold(word.to_string(), |line, number| format!("{line}\t{number}"))
}

/// A step on a line of its own.
fn raw_line(step: &Step) -> String {
    let lists = |word: &str, first: String, second: String| format!("{word}{first}\t/{second}");
    match step {
        Step::RoleSetup { juniors, permissions } => lists("!role-setup", tabbed("", juniors), tabbed("", permissions)),
        Step::LabelSetup { clearances, labels } => lists("!label-setup", tabbed("", clearances), tabbed("", labels)),
        Step::Role(ask) => tabbed("!role", ask),
        Step::Label(ask) => tabbed("!label", ask),
        Step::Tallied(ask) => tabbed("!tallied", ask),
        Step::Statement(rate) => tabbed("!statement", &[rate]),
        Step::Permissions(session) => tabbed("!permissions", &[session]),
        Step::Authorised(user) => tabbed("!authorised", &[user]),
        Step::Alike => "!alike".to_string(),
        Step::Put(at, word) => tabbed("!put", &[*at as u64, *word]),
        Step::Flip(at, bit) => tabbed("!flip", &[*at as u64, *bit]),
        Step::Count(user, count) => tabbed("!count", &[*user, u64::from(*count)]),
        Step::Length(words) => tabbed("!length", &[words]),
        Step::Keep => "!keep".to_string(),
        Step::Restore => "!restore".to_string(),
    }
}

impl Display for Case {
    fn fmt(&self, out: &mut Formatter) -> fmt::Result {
        let mode = self.0.first().filter(|first| setup_lines(first).is_some());
        for (at, step) in self.0.iter().enumerate() {
            let line = match (mode, step) {
                (Some(first), _) if at == 0 => setup_lines(first).map(|lines| lines.join("\n") + "\nrun"),
                (Some(Step::RoleSetup { .. }), Step::Role(ask)) => request_line(Layer::Roles, *ask),
                (Some(Step::LabelSetup { .. }), Step::Label(ask)) => request_line(Layer::Labels, *ask),
                _ => None,
            };
            writeln!(out, "{}", line.unwrap_or_else(|| raw_line(step)))?;
        }
        Ok(())
    }
}

impl FromStr for Case {
    type Err = String;

    fn from_str(text: &str) -> Result<Case, String> {
        let mut lines = text.lines().peekable();
        let mut steps = Vec::new();
        let mode = lines.peek().copied().and_then(Layer::of_mode);
        if let Some(mode) = mode {
            let setup = lines.by_ref().skip(1).take_while(|line| *line != "run").map(parse_line);
            steps.push(read_setup(mode, &setup.collect::<Result<Vec<_>, _>>()?)?);
        }
        for line in lines {
            let (word, numbers) = parse_line(line)?;
            steps.push(read_step(mode, word, &numbers).ok_or_else(|| format!("no step: {line}"))?);
        }
        Ok(Case(steps))
    }
}

/// A word and its numbers; a list ends with a slash that stands before its next number.
fn parse_line(line: &str) -> Result<(&str, Vec<u64>), String> {
    let mut pieces = line.split('\t');
    let word = pieces.next().unwrap_or_default();
    let marked = |piece: &str| if piece == "/" { Ok(SLASH) } else { piece.parse() };
    let numbers = pieces.map(marked).collect::<Result<_, _>>();
    numbers.map(|numbers| (word, numbers)).map_err(|_| format!("no number: {line}"))
}

/// Stands for the slash between two lists; no value of a set-up that is printed so.
const SLASH: u64 = 0x2f2f_2f2f_2f2f_2f2f;

/// A set-up from its lines; the mode's first word fills the first list, its second word the second.
fn read_setup(mode: Layer, lines: &[(&str, Vec<u64>)]) -> Result<Step, String> {
    let (mut first, mut second) = (vec![0; 64], vec![0; if mode == Layer::Roles { 8 } else { 64 }]);
    for (word, numbers) in lines {
        let list = match mode.words().iter().position(|found| found.name == *word) {
            Some(0) => &mut first,
            Some(1) => &mut second,
            _ => return Err(format!("no set-up line: {word}")),
        };
        let &[at, value @ 0..=63] = &numbers[..] else {
            return Err(format!("no set-up line: {word} {numbers:?}"));
        };
        let place = list.get_mut(at as usize).ok_or_else(|| format!("out of range: {word} {at}"))?;
        *place = if mode == Layer::Roles { *place | 1 << value } else { value };
    }
    Ok(setup_step(mode, first, second))
}

fn setup_step(layer: Layer, first: Vec<u64>, second: Vec<u64>) -> Step {
    if layer == Layer::Roles {
        return Step::RoleSetup { juniors: first, permissions: second };
    }
    let bytes = |list: Vec<u64>| list.into_iter().map(|value| value as u8).collect();
    Step::LabelSetup { clearances: bytes(first), labels: bytes(second) }
}

/// A request of the mode with its number of fields.
fn read_request(mode: Layer, word: &str, numbers: &[u64]) -> Option<Step> {
    let code = mode.word(word, numbers.len())?.code?;
    let argument = |at: usize| numbers.get(at).copied().unwrap_or(0);
    Some(Step::request(mode, [code, argument(0), argument(1), argument(2)]))
}

fn read_step(mode: Option<Layer>, word: &str, numbers: &[u64]) -> Option<Step> {
    if let Some(step) = mode.and_then(|mode| read_request(mode, word, numbers)) {
        return Some(step);
    }
    Some(match (word, numbers) {
        ("!role-setup" | "!label-setup", _) => {
            let at = numbers.iter().position(|number| *number == SLASH)?;
            let layer = if word == "!role-setup" { Layer::Roles } else { Layer::Labels };
            setup_step(layer, numbers[..at].to_vec(), numbers[at + 1..].to_vec())
        }
        ("!role", _) => Step::Role(numbers.try_into().ok()?),
        ("!label", _) => Step::Label(numbers.try_into().ok()?),
        ("!tallied", _) => Step::Tallied(numbers.try_into().ok()?),
        ("!statement", [rate]) => Step::Statement(*rate),
        ("!permissions", [session]) => Step::Permissions(*session),
        ("!authorised", [user]) => Step::Authorised(*user),
        ("!put", [at, value]) => Step::Put(*at as usize, *value),
        ("!flip", [at, bit]) => Step::Flip(*at as usize, *bit),
        ("!count", [user, count]) => Step::Count(*user, (*count).try_into().ok()?),
        ("!length", [words]) => Step::Length(*words as usize),
        ("!alike", []) => Step::Alike,
        ("!keep", []) => Step::Keep,
        ("!restore", []) => Step::Restore,
        _ => return None,
    })
}
