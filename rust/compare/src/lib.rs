//! Comparison of guards with the second implementation.
//!
//! A [`Case`] is a list of steps: set-ups, requests by code and numbers, openings that lend a tally, statements, damage to the
//! table, likeness, readings. It is carried out on the second implementation and on every other guard there is, and after
//! each step the answers, all words and all counts are held to be the same. A case that tells two guards apart is made
//! shorter and printed in a form that `compare replay` reads; where it holds no more than a transcript can say, that form is
//! a transcript.

mod case;
mod generate;
mod guard;
mod random;
mod reached;
mod run;
mod shrink;
mod text;
mod transcripts;
mod words;

pub use case::{Case, Step};
pub use generate::{damage_everywhere, damaged, likeness, links, requests, set_ups, tallies, worded_requests};
#[cfg(feature = "proved")]
pub use guard::PROVED;
pub use guard::{guards, Guard, GUARDS, PLAIN, REFERENCE};
pub use random::Random;
pub use reached::{every_call, every_transcript, Reached};
pub use reference::WORDS;
pub use run::{check, compare, watch, Reply, Run, LENT};
pub use shrink::shrink;
pub use text::members;
pub use transcripts::{check_transcript, difference, random_transcript, readers, Reader};
pub use words::Layer;

#[cfg(test)]
const _: () = assert!(!reference::WRONG, "tests are built without wrong turns");
