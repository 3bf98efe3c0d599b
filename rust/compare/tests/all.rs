//! The comparison tests as one program, so that what they share is built once.

mod calls;
mod cases;
mod common;
mod labels;
mod likeness;
mod masks;
mod printed;
mod seniority;
mod separation;
mod tally;
mod transcripts;

const _: () = assert!(!reference::WRONG, "tests are built without wrong turns");
