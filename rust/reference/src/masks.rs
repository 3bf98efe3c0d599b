//! The masks: the effective permissions of each session as the table keeps them.

use crate::state::{Mode, Object, Session, State, SESSIONS};
use crate::turns::turn;
use std::collections::BTreeSet;

impl State {
    /// What the masks have to be. The wrong turns leave the juniors of the active roles out, or take all roles that the user of
    /// a session is authorised for.
    fn worked_out(&self) -> BTreeSet<(Session, Mode, Object)> {
        let pairs = |s| turn!(masks_without_juniors, self.effective(s), self.granted_to(&self.active_in(s)));
        let pairs = |s| turn!(masks_of_authorised, pairs(s), &pairs(s) | &self.granted_to(&self.authorised_for(s)));
        (0..SESSIONS).flat_map(|s| pairs(s).into_iter().map(move |(x, o)| (s, x, o))).collect()
    }

    /// Works all masks out anew.
    pub fn refresh(&mut self) {
        self.masks = self.worked_out();
    }

    /// Whether the masks are what they have to be; the wrong turns let them be less, or more, or anything in an idle session.
    pub fn masks_are_true(&self) -> bool {
        let masks = turn!(idle_masks, self.masks.clone(), self.masks_in_use());
        let anew = self.worked_out();
        let are_true = turn!(masks_short, masks == anew, masks.is_subset(&anew));
        turn!(masks_beyond, are_true, are_true || masks.is_superset(&anew))
    }
}
