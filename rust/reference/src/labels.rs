//! Labels, the Bell-LaPadula machine, and its image as an RBAC96 state.

use crate::requests::{below, unlisted};
use crate::seniority::between_others;
use crate::state::{seconds, Mode, Object, Role, Session, State, User, OBJECTS, SESSIONS, USERS};
use crate::turns::turn;
use std::collections::{BTreeMap, BTreeSet};
use std::sync::OnceLock;

/// A label: a class 0 to 3 and a set of three brands.
#[derive(Clone, Copy, Debug, PartialEq, Eq)]
pub struct Label(u64);

/// How the first of two labels stands to the second.
#[derive(Clone, Copy, Debug, PartialEq, Eq)]
pub enum Standing {
    /// They are the same label.
    Equal,
    /// The first dominates the second, and they differ.
    Above,
    /// The second dominates the first, and they differ.
    Below,
    /// Neither dominates the other.
    Apart,
}

/// How many labels there are.
const LABELS: u64 = 32;

/// The modes of the machine: 0 reads, 1 writes without reading.
const READ: Mode = 0;
const WRITE: Mode = 1;

impl Label {
    /// The label of a number 0 to 31.
    pub fn of(number: u64) -> Option<Label> {
        (number < LABELS).then_some(Label(number))
    }

    fn all() -> impl Iterator<Item = Label> {
        (0..LABELS).map(Label)
    }

    fn class(self) -> u64 {
        self.0 / 8
    }

    /// Whether each of the three brands is in the label's set.
    fn brands(self) -> [bool; 3] {
        let set = self.0 % 8;
        [set % 2 == 1, set / 2 % 2 == 1, set / 4 == 1]
    }

    /// How the label stands to another. The one dominates whose class is at least the other's and whose set holds all of
    /// the other's brands; the wrong turn asks for a higher class.
    pub fn stands(self, other: Label) -> Standing {
        let reaches = |class: u64, of: u64| turn!(above_by_class, class >= of, class > of);
        let holds = |set: [bool; 3], all_of: [bool; 3]| (0..3).all(|brand| set[brand] || !all_of[brand]);
        if self == other {
            Standing::Equal
        } else if reaches(self.class(), other.class()) && holds(self.brands(), other.brands()) {
            Standing::Above
        } else if reaches(other.class(), self.class()) && holds(other.brands(), self.brands()) {
            Standing::Below
        } else {
            Standing::Apart
        }
    }

    fn read_role(self) -> Role {
        self.0
    }

    fn write_role(self) -> Role {
        32 + self.0
    }
}

impl Standing {
    /// Whether the first label dominates the second; the wrong turn lets labels pass that are apart.
    pub fn equal_or_above(self) -> bool {
        turn!(not_below, matches!(self, Standing::Equal | Standing::Above), self != Standing::Below)
    }

    /// The number that the comparison of two labels answers with.
    pub fn number(self) -> u64 {
        match self {
            Standing::Equal => 0,
            Standing::Above => 1,
            Standing::Below => 2,
            Standing::Apart => 3,
        }
    }
}

/// A machine state.
#[derive(Clone, Debug, PartialEq, Eq)]
pub struct Machine {
    pub clearances: BTreeMap<User, Label>,
    pub labels: BTreeMap<Object, Label>,
    /// The user and the level of each session that is not idle.
    pub sessions: BTreeMap<Session, (User, Label)>,
    pub openings: BTreeSet<(Session, Mode, Object)>,
}

impl Machine {
    /// The machine of a set-up: all sessions idle and nothing open.
    pub fn starting(clearances: BTreeMap<User, Label>, labels: BTreeMap<Object, Label>) -> Machine {
        Machine { clearances, labels, sessions: BTreeMap::new(), openings: BTreeSet::new() }
    }

    /// A label request: refusals 15 and 16, then yes or no with the machine's figure.
    pub fn request(&mut self, code: u64, [a, b, c]: [u64; 3]) -> Result<(bool, u64), u64> {
        match code {
            1 => {
                let (s, o, x) = (below(a, SESSIONS)?, below(b, OBJECTS)?, below(c, 2)?);
                Ok((self.open(s, o, x), 1))
            }
            2 => {
                let (s, o, x) = (below(a, SESSIONS)?, below(b, OBJECTS)?, below(c, 2)?);
                self.openings.remove(&(s, x, o));
                Ok((true, 1))
            }
            3 => {
                let (s, u, y) = (below(a, SESSIONS)?, below(b, USERS)?, below(c, LABELS)?);
                let figure = turn!(start_spends_three, 1, if self.sessions.contains_key(&s) { 1 } else { 3 });
                Ok((self.start(s, u, Label(y)), figure))
            }
            4 => {
                let s = below(a, SESSIONS)?;
                unlisted(&[b, c])?;
                Ok((self.end(s), 1))
            }
            5 => {
                let (u, label) = (below(a, USERS)?, below(b, LABELS)?);
                unlisted(&[c])?;
                Ok(self.reclear(u, Label(label)))
            }
            _ => Err(15),
        }
    }

    fn open(&mut self, s: Session, o: Object, x: Mode) -> bool {
        let Some((_, level)) = self.sessions.get(&s) else {
            return false;
        };
        let label = self.labels[&o];
        let standing = match x {
            READ => level.stands(label),
            _ => written(label, *level),
        };
        let yes = standing.equal_or_above();
        if yes {
            self.openings.insert((s, x, o));
        }
        yes
    }

    fn start(&mut self, s: Session, u: User, y: Label) -> bool {
        let cleared = self.clearances.get(&u).is_some_and(|clearance| clearance.stands(y).equal_or_above());
        let yes = cleared && !self.sessions.contains_key(&s);
        if yes {
            self.sessions.insert(s, (u, y));
        }
        yes
    }

    fn end(&mut self, s: Session) -> bool {
        self.openings.retain(|(session, _, _)| *session != s);
        self.sessions.remove(&s).is_some()
    }

    fn reclear(&mut self, u: User, c: Label) -> (bool, u64) {
        if self.clearances.get(&u) == Some(&c) {
            return turn!(reclear_same, (true, 0), self.reclear_same(u));
        }
        let mut seats = self.sessions.values().filter(|(user, _)| *user == u);
        let yes = seats.all(|(_, level)| c.stands(*level).equal_or_above());
        if yes {
            self.clearances.insert(u, c);
        }
        (yes, if yes { 2 } else { 3 })
    }

    /// The RBAC96 state that stands for the machine, after Osborn, Sandhu and Munawer.
    pub fn image(&self) -> State {
        let seniority = label_seniority().clone();
        // every junior but the role itself is a direct one
        let direct = between_others(&seniority);
        let mut state = State { seniority, direct, openings: self.openings.clone(), ..State::default() };
        for (u, clearance) in &self.clearances {
            state.assigned.insert((*u, clearance.read_role()));
        }
        state.assigned.extend((0..USERS).map(|u| (u, Label(0).write_role())));
        for (o, label) in &self.labels {
            state.permissions.extend([(READ, *o), (WRITE, *o)]);
            state.granted.extend([(READ, *o, label.read_role()), (WRITE, *o, label.write_role())]);
        }
        for (s, (u, level)) in &self.sessions {
            state.users.insert(*s, *u);
            state.active.insert((*s, level.read_role()));
            turn!(start_reads_only, state.active.insert((*s, level.write_role())), false);
        }
        turn!(image_without_masks, state.refresh(), ());
        state
    }

    /// The machine whose image the state is; the wrong turn does not look at the direct juniors.
    pub fn of_image(state: &State) -> Option<Machine> {
        let clearance = |u| Some((u, only_label(seconds(&state.assigned, u))?));
        let label = |o| {
            let reads = state.granted.range((READ, o, 0)..(READ, o + 1, 0));
            Some((o, only_label(reads.map(|(_, _, r)| *r))?))
        };
        let seat = |(s, u): (&Session, &User)| Some((*s, (*u, only_label(seconds(&state.active, *s))?)));
        let machine = Machine {
            clearances: (0..USERS).map(clearance).collect::<Option<_>>()?,
            labels: (0..OBJECTS).map(label).collect::<Option<_>>()?,
            sessions: state.users.iter().map(seat).collect::<Option<_>>()?,
            openings: state.openings.clone(),
        };
        let image = machine.image();
        let image = turn!(image_any_links, image, State { direct: state.direct.clone(), ..image });
        (image == *state).then_some(machine)
    }
}

/// The seniority of the reading and the writing roles: the same in every image, and worked out once.
fn label_seniority() -> &'static BTreeSet<(Role, Role)> {
    static SENIORITY: OnceLock<BTreeSet<(Role, Role)>> = OnceLock::new();
    SENIORITY.get_or_init(|| {
        let pairs = || Label::all().flat_map(|l| Label::all().map(move |k| (l, k)));
        let reads = pairs().filter(|(l, k)| l.stands(*k).equal_or_above());
        let writes = pairs().filter(|(l, k)| written(*k, *l).equal_or_above());
        let reads = reads.map(|(l, k)| (l.read_role(), k.read_role()));
        reads.chain(writes.map(|(l, k)| (l.write_role(), k.write_role()))).collect()
    })
}

/// How the label of what is written stands to the level of the session; the wrong turn has it write down.
fn written(label: Label, level: Label) -> Standing {
    turn!(write_like_read, label.stands(level), level.stands(label))
}

/// The label whose reading role is the only one among the roles.
fn only_label(roles: impl Iterator<Item = u64>) -> Option<Label> {
    let mut labels = roles.filter_map(Label::of);
    let label = labels.next()?;
    labels.next().is_none().then_some(label)
}
