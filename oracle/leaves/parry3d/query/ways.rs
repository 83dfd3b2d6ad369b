//! How a cast ended: noted by the edited copy of gjk.rs (not of the crate).

use std::cell::Cell;

#[derive(Copy, Clone, Debug, PartialEq, Eq, PartialOrd, Ord)]
pub enum Way {
    /// Between two ways out: a cast that ends here has panicked.
    Under,
    ZeroDirection,
    NoDistance,
    LastChancePast,
    LastChanceRefined,
    LastChance,
    Past,
    Away,
    LastChanceMissed,
    BoundsMet,
    InsideMissed,
    Inside,
    HundredRounds,
}

thread_local! {
    static WAY: Cell<Way> = const { Cell::new(Way::Under) };
    static REFINED: Cell<bool> = const { Cell::new(false) };
    static NOT_ADDED: Cell<bool> = const { Cell::new(false) };
    static LOWERED: Cell<bool> = const { Cell::new(false) };
}

/// A new cast.
pub fn begin() {
    WAY.set(Way::Under);
    REFINED.set(false);
    NOT_ADDED.set(false);
    LOWERED.set(false);
}

pub fn note(way: Way) {
    WAY.set(way);
}

/// The witnesses have raised the lower bound.
pub fn refined() {
    REFINED.set(true);
}

/// What `add_point` answered, which the Rust does not look at.
pub fn added(answer: bool) {
    if !answer {
        NOT_ADDED.set(true);
    }
}

/// A new lower bound: the simplex is moved.
pub fn lowered() {
    LOWERED.set(true);
}

/// The way out of the last cast of this thread.
pub fn way() -> Way {
    match WAY.get() {
        Way::LastChance if REFINED.get() => Way::LastChanceRefined,
        way => way,
    }
}

/// Whether a point was not added in the last cast.
pub fn not_added() -> bool {
    NOT_ADDED.get()
}

/// Whether the last cast had a new lower bound.
pub fn has_lowered() -> bool {
    LOWERED.get()
}
