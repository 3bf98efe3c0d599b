//! Fixed cases as lines, and what a guard makes of them; and what random cases reach, counted.

use compare::{guards, members, Case, Guard, Random, Run, Step, LENT, PLAIN};
use std::collections::BTreeMap;

/// Lines with blanks for tabs, parted by line ends or semicolons.
fn lines(text: &str) -> impl Iterator<Item = &str> {
    text.split(['\n', ';']).map(str::trim).filter(|line| !line.is_empty())
}

/// The case of such lines.
pub fn case(text: &str) -> Case {
    let tabbed: String = lines(text).map(|line| line.replace(' ', "\t") + "\n").collect();
    tabbed.parse().expect("the lines are a set-up and requests of its mode")
}

/// A run that has carried out lines, each answered yes.
pub fn after(guard: &Guard, text: &str) -> Run {
    let mut run = Run::default();
    for step in &case(text).0 {
        assert_eq!(run.step(guard, step).map(|reply| reply.answers[0]), Some(1), "{step:?} by the {}", guard.name);
    }
    run
}

/// Answer and spent of each call of a case. Whatever is not answered yes leaves every word and every count.
pub fn play(case: &Case, guard: &Guard) -> Vec<[u64; 2]> {
    let mut run = Run::default();
    let mut rows = Vec::new();
    for step in &case.0 {
        let (table, tally) = (run.table.clone(), run.tally);
        let Some(reply) = run.step(guard, step) else { continue };
        let answer = reply.answers[0];
        let is_left = run.table == table && run.tally == tally;
        assert!(answer == 1 || is_left, "{step:?} changes what is lent to the {}", guard.name);
        let spent = match step {
            Step::Role(_) => u64::from(answer < 2),
            _ => reply.answers.get(1).copied().unwrap_or(0),
        };
        rows.push([answer, spent]);
    }
    rows
}

/// Plays lines on every guard; a call stands with its answer, as `end 31: 1`.
pub fn expect(text: &str) {
    let asked = lines(text).map(|line| line.split_once(": ").map_or(line, |(asked, _)| asked));
    let case = case(&asked.collect::<Vec<&str>>().join("\n"));
    let answers = lines(text).filter_map(|line| Some(line.split_once(": ")?.1.parse::<u64>().expect("a number")));
    // the set-up is one call
    let expected: Vec<u64> = [1].into_iter().chain(answers).collect();
    for guard in guards() {
        let played: Vec<u64> = play(&case, guard).iter().map(|[answer, _]| *answer).collect();
        assert_eq!(played, expected, "{text} by the {}", guard.name);
    }
}

/// Words, each at its place.
pub type Words = &'static [(usize, u64)];

/// Where the masks begin.
pub const MASKS: usize = 1096;

/// The masks that the other words of a table lead to.
pub fn masks_of(table: &[u64]) -> Vec<u64> {
    let mask = |session: usize, mode: usize| {
        let roles = members(table[680 + session]).fold(0, |all, role| all | table[role as usize]);
        let granted = |object: &u64| table[136 + 64 * mode + *object as usize] & roles != 0;
        let effective = members(table[64 + mode]).filter(granted);
        effective.fold(0, |all, object| all | 1 << object)
    };
    (0..256).map(|at| mask(at / 8, at % 8)).collect()
}

/// Makes a role request and holds the answer and every word to what is expected: yes writes these words, each at its place,
/// the masks that they lead to, and no others, and all else leaves the table.
pub fn ask(run: &mut Run, guard: &Guard, asked: [u64; 4], answer: u64, writes: &[(usize, u64)]) {
    let mut expected = run.table.clone();
    if answer == 1 {
        writes.iter().for_each(|(at, word)| expected[*at] = *word);
        let masks = masks_of(&expected);
        expected[MASKS..].copy_from_slice(&masks);
        assert!(writes.iter().all(|(at, word)| expected[*at] == *word), "{asked:?} leads to other masks");
    }
    let reply = run.step(guard, &Step::Role(asked)).map(|reply| reply.answers);
    assert_eq!(reply, Some(vec![answer]), "{asked:?} by the {}", guard.name);
    assert!(run.table == expected, "{asked:?} by the {} writes other words", guard.name);
}

/// Makes role requests one after the other on every guard behind lines, each held to its answer and to the words that it writes.
pub fn ask_all(text: &str, requests: &[([u64; 4], u64, Words)]) {
    for guard in guards() {
        let mut run = after(guard, text);
        requests.iter().for_each(|(asked, answer, writes)| ask(&mut run, guard, *asked, *answer, writes));
    }
}

/// Holds a label request to its answer and spent.
pub fn close(run: &mut Run, guard: &Guard, answers: [u64; 2]) {
    let reply = run.step(guard, &Step::Label([2, 2, 0, 0])).map(|reply| reply.answers);
    assert_eq!(reply, Some(answers.to_vec()), "{}", guard.name);
}

/// Every call that tests the table, with its answers (and spent) where the table is sound and session 5 is idle.
fn calls(label_answers: [u64; 2]) -> [(Step, Vec<u64>); 13] {
    [
        (Step::Role([0, 0, 0, 0]), vec![15]),
        (Step::Role([1, 32, 0, 0]), vec![16]),
        (Step::Role([2, 5, 0, 0]), vec![1]),
        (Step::Role([4, 5, 0, 0]), vec![0]),
        (Step::Role([13, 64, 0, 0]), vec![16]),
        (Step::Role([13, 4, 4, 0]), vec![0]),
        (Step::Role([14, 4, 4, 0]), vec![0]),
        (Step::Label([2, 5, 0, 0]), label_answers.to_vec()),
        (Step::Tallied([5, 0, 0]), vec![0]),
        (Step::Alike, vec![1, 1]),
        (Step::Permissions(0), vec![1]),
        (Step::Permissions(5), vec![1]),
        (Step::Authorised(0), vec![1]),
    ]
}

/// Holds every call to refusal 13, which leaves all words, or where the table is sound to other answers.
pub fn judge(run: &mut Run, guard: &Guard, label_answers: [u64; 2], is_sound: bool) {
    run.step(guard, &Step::Keep);
    let (table, tally) = (run.table.clone(), run.tally);
    for (step, if_sound) in calls(label_answers) {
        let reply = run.step(guard, &step).expect("a guard takes part");
        let refused = if matches!(step, Step::Alike) { vec![13, 13] } else { vec![13, 0] };
        let expected = if is_sound { &if_sound[..] } else { &refused[..if_sound.len()] };
        assert_eq!(reply.answers, expected, "{step:?} by the {}", guard.name);
        assert!(is_sound || reply.words.iter().all(|word| *word == LENT), "{step:?} by the {} writes", guard.name);
        assert!(run.table == table && run.tally == tally, "{step:?} by the {} changes what is lent", guard.name);
    }
}

/// Whether a table is sound, by a request that is refused straight after the test.
pub fn is_sound(table: &[u64]) -> bool {
    (PLAIN.role_request)(&mut table.to_vec(), 0, 0, 0, 0) == 15
}

/// How often each kind of thing was met.
#[derive(Debug, Default)]
pub struct Counts(BTreeMap<String, u64>);

impl Counts {
    pub fn add(&mut self, kind: impl Into<String>) {
        *self.0.entry(kind.into()).or_default() += 1;
    }
}

/// Counts the kinds of things in so many rounds of random cases, and demands so many kinds, each met so often.
pub fn every_kind(
    [kinds, often]: [u64; 2],
    seed: u64,
    rounds: u64,
    cases: impl Fn(&mut Random) -> Vec<Case>,
    count: impl Fn(&Case, &mut Counts),
) {
    let (mut random, mut counts) = (Random::new(seed), Counts::default());
    for _ in 0..rounds {
        cases(&mut random).iter().for_each(|case| count(case, &mut counts));
    }
    let Counts(counts) = counts;
    println!("{counts:?}");
    assert!(counts.len() as u64 == kinds && counts.values().all(|count| *count >= often), "{counts:?}");
}
