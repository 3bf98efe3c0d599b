//! A case: steps on one table and one tally.

use crate::words::Layer;

/// What is done to the table or the tally, or asked of them.
#[derive(Clone, Debug, PartialEq, Eq)]
pub enum Step {
    RoleSetup {
        juniors: Vec<u64>,
        permissions: Vec<u64>,
    },
    LabelSetup {
        clearances: Vec<u8>,
        labels: Vec<u8>,
    },
    /// A role request: code and three arguments.
    Role([u64; 4]),
    /// A label request: code and three arguments.
    Label([u64; 4]),
    /// An opening that lends the tally: session, object and mode.
    Tallied([u64; 3]),
    /// The statement of the tally at a rate.
    Statement(u64),
    /// The effective permissions of a session.
    Permissions(u64),
    /// The authorised roles of a user.
    Authorised(u64),
    /// Whether the kept table and the table are alike, in this order and in the other.
    Alike,
    /// Writes a word of the table, where it is so long.
    Put(usize, u64),
    /// Turns one bit of a word of the table, where it is so long.
    Flip(usize, u64),
    /// Writes the count of a user, where there is one of this number.
    Count(u64, u32),
    /// Cuts the table to so many words, or fills it up with 0.
    Length(usize),
    /// Keeps a copy of the table.
    Keep,
    /// Puts the kept copy back.
    Restore,
}

impl Step {
    /// A request of a layer: code and three arguments.
    pub fn request(layer: Layer, ask: [u64; 4]) -> Step {
        match layer {
            Layer::Roles => Step::Role(ask),
            Layer::Labels => Step::Label(ask),
        }
    }
}

/// Steps on a table whose words are 0, the kept copy like it, and a tally whose counts are 0.
#[derive(Clone, Debug, Default, PartialEq, Eq)]
pub struct Case(pub Vec<Step>);
