//! The words of a transcript in each mode, after the scope's tables: what a word's fields name, the code of a request, and
//! the answers; and the requests that have no word. What has to be reached (`every_call`, `every_transcript`) is derived from
//! this one page.

use Field::{Bound, Label, LabelMode, Mode, Object, Role, RoleSet, Session, SetNumber, User};

/// The layer that a table is set up for; in a transcript the mode.
#[derive(Clone, Copy, Debug, PartialEq, Eq)]
pub enum Layer {
    Roles,
    Labels,
}

/// What a field names.
#[derive(Clone, Copy, Debug, PartialEq, Eq)]
pub enum Field {
    User,
    Role,
    /// A mask of roles, any number.
    RoleSet,
    Session,
    Object,
    Mode,
    /// A mode of the label layer, 0 or 1.
    LabelMode,
    Label,
    /// The number of a separation set.
    SetNumber,
    /// The bound of a separation set, any number.
    Bound,
}

/// A word of a mode.
#[derive(Clone, Copy, Debug)]
pub struct Word {
    pub name: &'static str,
    pub fields: &'static [Field],
    /// The code of a request; none for a word of the set-up.
    pub code: Option<u64>,
    /// The answers with spent where the line is in place and its values are in range.
    pub answers: &'static [[u64; 2]],
}

const fn set_up(name: &'static str, fields: &'static [Field], answers: &'static [[u64; 2]]) -> Word {
    Word { name, fields, code: None, answers }
}

const fn request(code: u64, name: &'static str, fields: &'static [Field], answers: &'static [[u64; 2]]) -> Word {
    Word { name, fields, code: Some(code), answers }
}

const ACCEPTED: [u64; 2] = [1, 0];
const CYCLE: [u64; 2] = [20, 0];
const NO: [u64; 2] = [0, 1];
const YES: [u64; 2] = [1, 1];
const NO_PERMISSION: [u64; 2] = [17, 0];
const BAD_PAIR: [u64; 2] = [21, 0];

const ROLES: [Word; 13] = [
    set_up("above", &[Role, Role], &[ACCEPTED]),
    set_up("permit", &[Mode, Object], &[ACCEPTED]),
    set_up("run", &[], &[ACCEPTED, CYCLE]),
    request(1, "open", &[Session, Object, Mode], &[NO, YES]),
    request(2, "close", &[Session, Object, Mode], &[YES]),
    request(3, "start", &[Session, User, RoleSet], &[NO, YES]),
    request(4, "end", &[Session], &[NO, YES]),
    request(5, "activate", &[Session, Role], &[NO, YES]),
    request(6, "drop", &[Session, Role], &[NO, YES]),
    request(7, "assign", &[User, Role], &[YES]),
    request(8, "deassign", &[User, Role], &[NO, YES]),
    request(9, "grant", &[Role, Mode, Object], &[YES, NO_PERMISSION]),
    request(10, "revoke", &[Role, Mode, Object], &[NO, YES, NO_PERMISSION]),
];

/// The role requests that no transcript has a word for.
const WORDLESS: [Word; 4] = [
    request(11, "static set", &[SetNumber, RoleSet, Bound], &[NO, YES, BAD_PAIR]),
    request(12, "dynamic set", &[SetNumber, RoleSet, Bound], &[NO, YES, BAD_PAIR]),
    request(13, "link", &[Role, Role], &[NO, YES]),
    request(14, "unlink", &[Role, Role], &[NO, YES]),
];

/// The no of an assignment, by its code: no transcript shows it, since none makes a separation set.
pub const ASSIGNMENT_NO: (u64, [u64; 2]) = (7, NO);

const LABELS: [Word; 8] = [
    set_up("clear", &[User, Label], &[ACCEPTED]),
    set_up("label", &[Object, Label], &[ACCEPTED]),
    set_up("run", &[], &[ACCEPTED]),
    request(1, "open", &[Session, Object, LabelMode], &[NO, YES]),
    request(2, "close", &[Session, Object, LabelMode], &[YES]),
    request(3, "start", &[Session, User, Label], &[NO, YES]),
    request(4, "end", &[Session], &[NO, YES]),
    request(5, "reclear", &[User, Label], &[[0, 3], [1, 0], [1, 2]]),
];

/// The calls on a table or a tally that are no requests, and every answer of each.
pub const OTHER_CALLS: [(&str, &[u64]); 7] = [
    ("role set-up", &[1, 12, 18, 20]),
    ("label set-up", &[1, 12, 18, 19]),
    ("alike", &[0, 1, 12, 13]),
    ("permissions", &[1, 12, 13, 16]),
    ("authorised", &[1, 12, 13, 16]),
    ("tallied open", &[0, 1, 12, 13, 16, 23]),
    ("statement", &[1, 22]),
];

impl Layer {
    pub const ALL: [Layer; 2] = [Layer::Roles, Layer::Labels];

    /// The mode word.
    pub fn mode(self) -> &'static str {
        match self {
            Layer::Roles => "roles",
            Layer::Labels => "lattice",
        }
    }

    /// The layer of a mode word.
    pub fn of_mode(word: &str) -> Option<Layer> {
        Layer::ALL.into_iter().find(|layer| layer.mode() == word)
    }

    /// The words of the mode beside the mode words.
    pub fn words(self) -> &'static [Word] {
        match self {
            Layer::Roles => &ROLES,
            Layer::Labels => &LABELS,
        }
    }

    /// The requests that no transcript has a word for.
    fn wordless(self) -> &'static [Word] {
        match self {
            Layer::Roles => &WORDLESS,
            Layer::Labels => &[],
        }
    }

    /// How many requests have a word; their codes are from 1 on.
    pub fn worded(self) -> u64 {
        self.words().iter().filter(|word| word.code.is_some()).count() as u64
    }

    /// How many requests there are; those without a word have the last codes.
    pub fn codes(self) -> u64 {
        self.worded() + self.wordless().len() as u64
    }

    /// The request of a code.
    pub fn request(self, code: u64) -> Option<&'static Word> {
        self.words().iter().chain(self.wordless()).find(|word| word.code == Some(code))
    }

    /// The word of a name with so many fields.
    pub fn word(self, name: &str, fields: usize) -> Option<&'static Word> {
        self.words().iter().find(|word| (word.name, word.fields.len()) == (name, fields))
    }

    /// Whether a name with so many fields is a word of the mode; the mode words are.
    pub fn has(self, name: &str, fields: usize) -> bool {
        self.word(name, fields).is_some() || fields == 0 && Layer::of_mode(name).is_some()
    }
}
