// Document 01's counts and the rounds begun, counted beside the original's own lines. Doubled is proved to be zero and
// is in no answer: it is counted here all the same, and has to be.
use std::cell::Cell;

thread_local! {
    static MADE: Cell<u64> = const { Cell::new(0) };
    static SAVED: Cell<u64> = const { Cell::new(0) };
    static DOUBLED: Cell<u64> = const { Cell::new(0) };
    static BEGUN: Cell<u64> = const { Cell::new(0) };
}

pub struct Counts {
    pub made: u64,
    pub saved: u64,
    pub begun: u64,
}

pub fn made(k: usize) {
    MADE.set(MADE.get() + k as u64);
}

pub fn saved(k: usize) {
    SAVED.set(SAVED.get() + k as u64);
}

pub fn doubled(again: bool) {
    DOUBLED.set(DOUBLED.get() + again as u64);
}

pub fn begun() {
    BEGUN.set(BEGUN.get() + 1);
}

// What was counted since the last call.
pub fn take() -> Counts {
    assert_eq!(DOUBLED.take(), 0, "a reseed picked a leaf already picked in the same update");
    Counts { made: MADE.take(), saved: SAVED.take(), begun: BEGUN.take() }
}
