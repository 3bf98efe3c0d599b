//! Carrying a case out on several guards at once.

use crate::case::{Case, Step};
use crate::guard::{Guard, GUARDS, PLAIN, REFERENCE};
use crate::reached::Reached;
use crate::shrink::{shrink, simplify};
use reference::WORDS;

/// What one guard has made of the steps so far.
pub struct Run {
    pub table: Vec<u64>,
    pub tally: [u32; 64],
    kept: Vec<u64>,
}

/// What a step answered: the number, spent, and the words that a reading or a statement wrote.
#[derive(Debug, PartialEq, Eq)]
pub struct Reply {
    pub answers: Vec<u64>,
    pub words: Vec<u64>,
}

impl Reply {
    fn number(answer: u64) -> Reply {
        Reply { answers: vec![answer], words: Vec::new() }
    }
}

/// Lent words that a reading or a statement has to overwrite, or to leave where it is refused.
pub const LENT: u64 = 0x5555_aaaa_5555_aaaa;

impl Default for Run {
    fn default() -> Run {
        Run { table: vec![0; WORDS], tally: [0; 64], kept: vec![0; WORDS] }
    }
}

impl Run {
    /// Carries out a step; no reply where no guard takes part in it.
    pub fn step(&mut self, guard: &Guard, step: &Step) -> Option<Reply> {
        let table = &mut self.table;
        Some(match step {
            Step::RoleSetup { juniors, permissions } => Reply::number((guard.role_setup)(table, juniors, permissions)),
            Step::LabelSetup { clearances, labels } => Reply::number((guard.label_setup)(table, clearances, labels)),
            Step::Role([code, a, b, c]) => Reply::number((guard.role_request)(table, *code, *a, *b, *c)),
            Step::Label([code, a, b, c]) => {
                let mut spent = LENT;
                let answer = (guard.label_request)(table, *code, *a, *b, *c, &mut spent);
                Reply { answers: vec![answer, spent], words: Vec::new() }
            }
            Step::Tallied([session, object, mode]) => {
                Reply::number((guard.open_tallied)(table, &mut self.tally, *session, *object, *mode))
            }
            Step::Statement(rate) => self.stated(guard, *rate),
            Step::Permissions(session) => {
                let mut words = vec![LENT; 8];
                Reply { answers: vec![(guard.effective_permissions)(table, *session, &mut words)], words }
            }
            Step::Authorised(user) => {
                let mut words = vec![LENT; 1];
                Reply { answers: vec![(guard.authorised_roles)(table, *user, &mut words)], words }
            }
            Step::Alike => {
                let (one, other) = ((guard.alike)(&self.kept, table), (guard.alike)(table, &self.kept));
                Reply { answers: vec![one, other], words: Vec::new() }
            }
            Step::Put(..) | Step::Flip(..) | Step::Count(..) | Step::Length(_) | Step::Keep | Step::Restore => {
                self.handle(step);
                return None;
            }
        })
    }

    /// The statement of the tally, its total behind the charges.
    fn stated(&self, guard: &Guard, rate: u64) -> Reply {
        let (mut charges, mut total) = ([LENT; 64], LENT);
        let answer = (guard.statement)(&self.tally, rate, &mut charges, &mut total);
        Reply { answers: vec![answer], words: [&charges[..], &[total]].concat() }
    }

    /// The steps that no guard takes part in.
    fn handle(&mut self, step: &Step) {
        match step {
            Step::Put(at, word) => self.table.get_mut(*at).into_iter().for_each(|place| *place = *word),
            Step::Flip(at, bit) => self.table.get_mut(*at).into_iter().for_each(|place| *place ^= 1 << (bit % 64)),
            Step::Count(user, count) => {
                self.tally.get_mut(*user as usize).into_iter().for_each(|place| *place = *count)
            }
            Step::Length(words) => self.table.resize(*words, 0),
            Step::Keep => self.kept.clone_from(&self.table),
            Step::Restore => self.table.clone_from(&self.kept),
            _ => {}
        }
    }
}

/// Carries the case out on the plain guard and shows each call: the table before it, the step, its answer, the table after it.
pub fn watch(case: &Case, mut show: impl FnMut(&[u64], &Step, u64, &[u64])) {
    let mut run = Run::default();
    for step in &case.0 {
        let before = run.table.clone();
        if let Some(reply) = run.step(&PLAIN, step) {
            show(&before, step, reply.answers[0], &run.table);
        }
    }
}

/// Carries the case out on the second implementation and the guards; the first difference, in words.
pub fn compare(case: &Case, guards: &[Guard], reached: &mut Reached) -> Result<(), String> {
    let mut expected = Run::default();
    let mut runs: Vec<Run> = guards.iter().map(|_| Run::default()).collect();
    for (at, step) in case.0.iter().enumerate() {
        let reply = expected.step(&REFERENCE, step);
        if let Some(reply) = &reply {
            reached.step(step, &reply.answers);
        }
        for (guard, run) in guards.iter().zip(&mut runs) {
            let other = run.step(guard, step);
            if other != reply {
                return Err(format!("step {}: {:?} by the {}, {:?} expected", at + 1, other, guard.name, reply));
            }
            if run.table != expected.table {
                let places = (0..expected.table.len()).filter(|i| run.table.get(*i) != expected.table.get(*i));
                let places: Vec<usize> = places.take(8).collect();
                return Err(format!("step {}: words {places:?} differ in the {}'s table", at + 1, guard.name));
            }
            if run.tally != expected.tally {
                let places: Vec<usize> = (0..64).filter(|user| run.tally[*user] != expected.tally[*user]).collect();
                return Err(format!("step {}: counts {places:?} differ in the {}'s tally", at + 1, guard.name));
            }
        }
    }
    Ok(())
}

/// Compares the case on all guards there are.
///
/// # Errors
/// The difference, and the case made shorter in a form that can be replayed.
pub fn check(case: &Case, reached: &mut Reached) -> Result<(), String> {
    if compare(case, GUARDS, reached).is_ok() {
        return Ok(());
    }
    let difference = |steps: &[Step]| compare(&Case(steps.to_vec()), GUARDS, &mut Reached::default()).err();
    let fails = |steps: &[Step]| difference(steps).is_some();
    let short = Case(simplify(&shrink(&case.0, fails), fails));
    let difference = difference(&short.0).unwrap_or_default();
    Err(format!("{difference}\n---- replay with `compare replay FILE`:\n{short}----"))
}
