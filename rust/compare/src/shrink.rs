//! Making a failing case shorter.

use crate::case::Step;

/// A part of the list that still fails, from which no single item can be left out.
pub fn shrink<T: Clone>(items: &[T], fails: impl Fn(&[T]) -> bool) -> Vec<T> {
    let mut left = items.to_vec();
    let mut size = left.len().div_ceil(2);
    while size > 0 {
        let mut at = 0;
        while at < left.len() {
            let mut fewer = left.clone();
            fewer.drain(at..(at + size).min(fewer.len()));
            if fails(&fewer) {
                left = fewer;
            } else {
                at += size;
            }
        }
        size /= 2;
    }
    left
}

/// The steps with every set-up value made 0 that the failure does not need.
pub fn simplify(steps: &[Step], fails: impl Fn(&[Step]) -> bool) -> Vec<Step> {
    let mut left = steps.to_vec();
    for at in 0..left.len() {
        let mut place = 0;
        while let Some(simpler) = zeroed(&left[at], place) {
            let old = std::mem::replace(&mut left[at], simpler);
            if !fails(&left) {
                left[at] = old;
            }
            place += 1;
        }
    }
    left
}

/// A set-up with one of its values made 0.
fn zeroed(step: &Step, place: usize) -> Option<Step> {
    let mut copy = step.clone();
    match &mut copy {
        Step::RoleSetup { juniors, permissions } => *juniors.iter_mut().chain(permissions).nth(place)? = 0,
        Step::LabelSetup { clearances, labels } => *clearances.iter_mut().chain(labels).nth(place)? = 0,
        _ => return None,
    }
    Some(copy)
}
