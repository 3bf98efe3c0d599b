//! The transcript program: its whole input as bytes, its whole output as text.

use crate::labels::{Label, Machine};
use crate::setup;
use crate::state::{State, MODES, OBJECTS, ROLES, USERS};
use std::collections::{BTreeMap, BTreeSet};

/// The longest line, without its newline.
const LONGEST: usize = 128;

/// The output for an input.
pub fn transcript(input: &[u8]) -> String {
    let mut output = String::from("line\tanswer\tspent\n");
    let mut phase = Phase::Unset;
    for (at, line) in input.split_inclusive(|byte| *byte == b'\n').enumerate() {
        let (answer, spent) = match step(&mut phase, line) {
            Ok((yes, spent)) => (u64::from(yes), spent),
            Err(refusal) => (refusal, 0),
        };
        output += &format!("{}\t{answer}\t{spent}\n", at + 1);
    }
    output
}

/// Yes or no and what was spent, or the number of a refusal.
type Outcome = Result<(bool, u64), u64>;

const ACCEPTED: Outcome = Ok((true, 0));

/// How far a transcript has come.
enum Phase {
    /// No mode word was accepted yet.
    Unset,
    /// Set-up lines: direct juniors and permissions.
    Roles {
        direct: BTreeSet<(u64, u64)>,
        permissions: BTreeSet<(u64, u64)>,
    },
    /// Set-up lines: clearances and object labels.
    Lattice {
        clearances: BTreeMap<u64, Label>,
        labels: BTreeMap<u64, Label>,
    },
    RolesRun(State),
    LatticeRun(Machine),
}

/// What a word is for.
enum Use {
    Mode,
    SetUp,
    Run,
    /// A request of this code.
    Request(u64),
}

/// The words of a mode: their use and their number of fields.
fn look_up(phase: &Phase, word: &str) -> Option<(Use, usize)> {
    let roles = matches!(phase, Phase::Roles { .. } | Phase::RolesRun(_));
    let lattice = matches!(phase, Phase::Lattice { .. } | Phase::LatticeRun(_));
    match word {
        "roles" | "lattice" => Some((Use::Mode, 0)),
        "run" if roles || lattice => Some((Use::Run, 0)),
        "above" | "permit" if roles => Some((Use::SetUp, 2)),
        "clear" | "label" if lattice => Some((Use::SetUp, 2)),
        "open" if roles || lattice => Some((Use::Request(1), 3)),
        "close" if roles || lattice => Some((Use::Request(2), 3)),
        "start" if roles || lattice => Some((Use::Request(3), 3)),
        "end" if roles || lattice => Some((Use::Request(4), 1)),
        "reclear" if lattice => Some((Use::Request(5), 2)),
        "activate" if roles => Some((Use::Request(5), 2)),
        "drop" if roles => Some((Use::Request(6), 2)),
        "assign" if roles => Some((Use::Request(7), 2)),
        "deassign" if roles => Some((Use::Request(8), 2)),
        "grant" if roles => Some((Use::Request(9), 3)),
        "revoke" if roles => Some((Use::Request(10), 3)),
        _ => None,
    }
}

/// A line that is a word of its mode with its number of fields.
struct Record<'a> {
    word: &'a str,
    purpose: Use,
    fields: Vec<u64>,
}

/// None: refusal 10.
fn read<'a>(phase: &Phase, line: &'a [u8]) -> Option<Record<'a>> {
    let text = line.strip_suffix(b"\n").filter(|text| text.len() <= LONGEST)?;
    let mut pieces = std::str::from_utf8(text).ok()?.split('\t');
    let word = pieces.next()?;
    let (purpose, count) = look_up(phase, word)?;
    let fields: Vec<u64> = pieces.map(field).collect::<Option<_>>()?;
    (fields.len() == count).then_some(Record { word, purpose, fields })
}

/// 0, or digits without a leading 0, below 2^64.
fn field(text: &str) -> Option<u64> {
    let plain = text.bytes().all(|byte| byte.is_ascii_digit());
    let leading = text.starts_with('0') && text != "0";
    if plain && !leading {
        text.parse().ok()
    } else {
        None
    }
}

/// Carries out one line.
fn step(phase: &mut Phase, line: &[u8]) -> Outcome {
    let record = read(phase, line).ok_or(10u64)?;
    match record.purpose {
        Use::Mode => begin(phase, record.word),
        Use::SetUp => set_up(phase, record.word, record.fields[0], record.fields[1]),
        Use::Run => run(phase),
        Use::Request(code) => request(phase, code, &record.fields),
    }
}

fn begin(phase: &mut Phase, word: &str) -> Outcome {
    if !matches!(phase, Phase::Unset) {
        return Err(11);
    }
    *phase = match word {
        "roles" => Phase::Roles { direct: BTreeSet::new(), permissions: BTreeSet::new() },
        _ => Phase::Lattice { clearances: unnamed(USERS), labels: unnamed(OBJECTS) },
    };
    ACCEPTED
}

/// Unnamed clearances and labels are 0.
fn unnamed(count: u64) -> BTreeMap<u64, Label> {
    (0..count).filter_map(|at| Some((at, Label::of(0)?))).collect()
}

fn set_up(phase: &mut Phase, word: &str, first: u64, second: u64) -> Outcome {
    match phase {
        Phase::Roles { direct, .. } if word == "above" => {
            direct.insert((value(first, ROLES)?, value(second, ROLES)?));
        }
        Phase::Roles { permissions, .. } => {
            permissions.insert((value(first, MODES)?, value(second, OBJECTS)?));
        }
        Phase::Lattice { clearances, .. } if word == "clear" => {
            clearances.insert(value(first, USERS)?, label(second)?);
        }
        Phase::Lattice { labels, .. } => {
            labels.insert(value(first, OBJECTS)?, label(second)?);
        }
        _ => return Err(11),
    }
    ACCEPTED
}

/// Refusal 19: a set-up value is out of range.
fn value(number: u64, count: u64) -> Result<u64, u64> {
    if number < count {
        Ok(number)
    } else {
        Err(19)
    }
}

fn label(number: u64) -> Result<Label, u64> {
    Label::of(number).ok_or(19)
}

fn run(phase: &mut Phase) -> Outcome {
    let next = match phase {
        Phase::Roles { direct, permissions } => Phase::RolesRun(setup::roles(direct, permissions.clone())?),
        Phase::Lattice { clearances, labels } => {
            Phase::LatticeRun(Machine::starting(clearances.clone(), labels.clone()))
        }
        _ => return Err(11),
    };
    *phase = next;
    ACCEPTED
}

fn request(phase: &mut Phase, code: u64, fields: &[u64]) -> Outcome {
    let argument = |at: usize| fields.get(at).copied().unwrap_or(0);
    let arguments = [argument(0), argument(1), argument(2)];
    match phase {
        Phase::RolesRun(state) => Ok((state.request(code, arguments)?, 1)),
        Phase::LatticeRun(machine) => machine.request(code, arguments),
        _ => Err(11),
    }
}
