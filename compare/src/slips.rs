//! The slips that are woven into the reading: none here. `weave` makes a copy of this program that has them.

use std::cell::Cell;

/// What each slip gets wrong, in words; slip 1 is the first.
pub const SLIPS: &[&str] = &[];

thread_local! {
    /// The slip that is made now, 0 for none.
    static MADE: Cell<usize> = const { Cell::new(0) };
}

/// What `work` gives with this slip made, 0 for none. Slips are made one at a time.
pub fn with<T>(slip: usize, work: impl FnOnce() -> T) -> T {
    assert!(slip <= SLIPS.len(), "there is no slip {slip}");
    assert!(made(0), "a slip is made already");
    MADE.set(slip);
    let given = work();
    MADE.set(0);
    given
}

/// Whether this slip is made now.
pub fn made(slip: usize) -> bool {
    MADE.get() == slip
}
