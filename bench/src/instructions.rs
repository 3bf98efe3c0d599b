//! One call after the other, each where `bench/instructions` can have its instructions counted.

use crate::calls::{everyday, Call};
use crate::measure::Guards;
use compare::{Guard, PLAIN};

/// Answers at once: what is counted for it is not the guard's.
const NOTHING: Guard = Guard {
    name: "nothing",
    role_setup: |_, _, _| 0,
    role_request: |_, _, _, _, _| 0,
    alike: |_, _| 0,
    label_setup: |_, _, _| 0,
    label_request: |_, _, _, _, _, _| 0,
    compare_labels: |_, _| 0,
    effective_permissions: |_, _, _| 0,
    authorised_roles: |_, _, _| 0,
    open_tallied: |_, _, _, _, _| 0,
    statement: |_, _, _, _| 0,
};

/// Makes each call on no guard, on the plain one and on the proved one where it is there, and prints its name and the guard's.
pub fn make_calls() {
    let proved = Guards::all().proved;
    for call in everyday() {
        for guard in [Some(&NOTHING), Some(&PLAIN), proved.as_ref()].into_iter().flatten() {
            let mut table = call.table.clone();
            let answer = counted(&call, guard, &mut table);
            assert!(answer == call.answer || guard.name == NOTHING.name, "{} by the {}", call.name, guard.name);
            println!("{}\t{}", call.name, guard.name);
        }
    }
}

/// The call whose instructions are counted, from here to its end.
#[inline(never)]
fn counted(call: &Call, guard: &Guard, table: &mut [u64]) -> u64 {
    (call.ask)(guard, table)
}
