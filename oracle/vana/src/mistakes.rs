//! Which of `copies::MISTAKES` is made by `mistaken`.
use std::sync::atomic::{AtomicUsize, Ordering::Relaxed};

const NONE: usize = usize::MAX;

static MADE: AtomicUsize = AtomicUsize::new(NONE);

pub fn make(mistake: Option<usize>) {
    MADE.store(mistake.unwrap_or(NONE), Relaxed);
}

pub fn made(mistake: usize) -> bool {
    MADE.load(Relaxed) == mistake
}
