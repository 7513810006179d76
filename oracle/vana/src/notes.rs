//! What `added` notes while it performs a call, on each thread for itself: its thinnings and resets, in
//! their order.
use std::cell::RefCell;

#[derive(Clone, Copy, Debug, PartialEq)]
pub enum Note {
    Reset,
    Thinning(Thinning),
}

#[derive(Clone, Copy, Debug, PartialEq)]
pub struct Thinning {
    /// What it found: `retrace` above 0, and the breadcrumb followed.
    pub retrace: bool,
    pub followed: bool,
    pub passes: usize,
}

thread_local!(static NOTES: RefCell<Vec<Note>> = const { RefCell::new(Vec::new()) });

pub fn reset() {
    NOTES.with_borrow_mut(|notes| notes.push(Note::Reset));
}

/// A thinning begins.
pub fn thinning(retrace: bool, followed: bool) {
    let begun = Note::Thinning(Thinning { retrace, followed, passes: 0 });
    NOTES.with_borrow_mut(|notes| notes.push(begun));
}

/// A pass is made.
pub fn pass() {
    NOTES.with_borrow_mut(|notes| match notes.last_mut() {
        Some(Note::Thinning(thinning)) => thinning.passes += 1,
        _ => panic!("a pass outside a guide's thinning"),
    });
}

/// The notes since the last time.
pub fn take() -> Vec<Note> {
    NOTES.take()
}
