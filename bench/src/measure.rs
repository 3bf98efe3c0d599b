//! Measuring calls on several guards in turn.

use crate::calls::Call;
use compare::{Guard, PLAIN, REFERENCE, WORDS};
use std::fmt::{self, Display, Formatter};
use std::hint::black_box;
use std::time::{Duration, Instant};

/// Nanoseconds a call, one for each round, in rising order.
pub struct Times(Vec<f64>);

impl Times {
    pub fn new(mut times: Vec<f64>) -> Times {
        times.sort_by(f64::total_cmp);
        Times(times)
    }

    pub fn minimum(&self) -> f64 {
        self.0[0]
    }

    pub fn median(&self) -> f64 {
        self.0[self.0.len() / 2]
    }
}

impl Display for Times {
    fn fmt(&self, out: &mut Formatter) -> fmt::Result {
        write!(out, "{:.0} / {:.0}", self.minimum(), self.median())
    }
}

/// What one row came to.
pub struct Row {
    pub proved: Option<Times>,
    pub plain: Option<Times>,
    pub second: Option<Times>,
}

/// The guards that are there.
pub struct Guards {
    pub proved: Option<Guard>,
}

impl Guards {
    pub fn all() -> Guards {
        #[cfg(feature = "proved")]
        let proved = Some(compare::PROVED);
        #[cfg(not(feature = "proved"))]
        let proved = None;
        Guards { proved }
    }

    /// Each call on each guard in turn, round by round; a row for each call.
    pub fn measure(&self, calls: &[Call], rounds: usize) -> Vec<Row> {
        let guards = [self.proved.as_ref(), Some(&PLAIN), Some(&REFERENCE)];
        let cells = |call| guards.map(|guard| Some(Cell::new(call, guard?)));
        let mut rows: Vec<[Option<Cell>; 3]> = calls.iter().map(cells).collect();
        for _ in 0..rounds {
            rows.iter_mut().flatten().flatten().for_each(Cell::round);
        }
        let row = |cells: [Option<Cell>; 3]| {
            let [proved, plain, second] = cells.map(|cell| Some(Times::new(cell?.times)));
            Row { proved, plain, second }
        };
        rows.into_iter().map(row).collect()
    }
}

/// A call on a guard, so many turns in a round.
struct Cell<'a> {
    call: &'a Call,
    guard: &'a Guard,
    turns: u64,
    times: Vec<f64>,
}

impl Cell<'_> {
    fn new<'a>(call: &'a Call, guard: &'a Guard) -> Cell<'a> {
        Cell { call, guard, turns: turns(|count| once(call, guard, count)), times: Vec::new() }
    }

    /// Measures a round.
    fn round(&mut self) {
        self.times.push(once(self.call, self.guard, self.turns).as_nanos() as f64 / self.turns as f64);
    }
}

/// So many calls on a fresh table.
fn once(call: &Call, guard: &Guard, count: u64) -> Duration {
    let mut table = call.table.clone();
    let begin = Instant::now();
    for _ in 0..count {
        let answer = (call.ask)(guard, black_box(&mut table));
        assert_eq!(answer, call.answer, "{} by the {}", call.name, guard.name);
        for (at, word) in &call.restored {
            table[*at] = *word;
        }
    }
    begin.elapsed()
}

/// So many turns that they take about a millisecond, at least one: short enough to be left alone by what else runs.
fn turns(run: impl Fn(u64) -> Duration) -> u64 {
    let mut count = 1;
    loop {
        let taken = run(count);
        if taken > Duration::from_micros(200) {
            return (count * 1_000_000 / taken.as_nanos() as u64).max(1);
        }
        count *= 4;
    }
}

/// The limit: every word of a table read once.
pub fn plain_read(rounds: usize) -> Times {
    let table = vec![1u64; WORDS];
    let run = |count: u64| {
        let begin = Instant::now();
        for _ in 0..count {
            black_box(black_box(&table).iter().fold(0, |all, word| all | word));
        }
        begin.elapsed()
    };
    let turns = turns(run);
    Times::new((0..rounds).map(|_| run(turns).as_nanos() as f64 / turns as f64).collect())
}
