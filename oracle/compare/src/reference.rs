//! The handed-over Rust, and Rust's own casts and limits. Each function takes its input as one
//! value, as in `proved`.
use crate::thinning::Answer;
use crate::{Framing, Point};
use std::cell::RefCell;
use vana::ride::homing::{Crumb, Homing, probe};
use vana::ride::thin;

/// The processor's root.
pub fn sqrtf(x: f32) -> f32 {
    libm::sqrtf(x)
}

pub fn as_u32(x: f32) -> u32 {
    x as u32
}

/// `d as f32`; beyond the differences of two `i32`, where ours stops at 2^32 - 1, so does this.
pub fn as_f32(d: i64) -> f32 {
    const LARGEST: i64 = (1 << 32) - 1;
    d.clamp(-LARGEST, LARGEST) as f32
}

pub fn clamp(x: f32) -> f32 {
    x.clamp(0.0, 1.0)
}

/// Rust leaves the sign of `(-0.0).max(0.0)` open. Adding 0.0 settles it, and changes nothing else.
pub fn max_zero(x: f32) -> f32 {
    x.max(0.0) + 0.0
}

pub fn cosf(r: f32) -> f32 {
    libm::cosf(r)
}

pub fn atan2f((east, north): Point) -> f32 {
    libm::atan2f(east, north)
}

pub fn distance([a, b]: [Point; 2]) -> f32 {
    probe::distance(a, b)
}

pub fn project([p, a, b]: [Point; 3]) -> (Point, f32) {
    probe::project(p, a, b)
}

pub fn off_segment([p, a, b]: [Point; 3]) -> f32 {
    probe::off_segment(p, a, b)
}

/// thin.rs has an `off_segment` of its own.
pub fn off_segment_of_thin([p, a, b]: [Point; 3]) -> f32 {
    thin::off_segment(p, a, b)
}

pub fn bearing([from, to]: [Point; 2]) -> u16 {
    probe::bearing(from, to)
}

pub fn metres(value: f32) -> u32 {
    probe::metres(value)
}

pub fn east_per_e7(lat: i32) -> f32 {
    probe::east_per_e7(lat)
}

pub fn guide() -> Homing<'static> {
    Homing::new(vec![Crumb::default(); 8].leak())
}

pub fn frame_of(homing: &mut Homing, (origin, east_per_e7, place): Framing) -> Point {
    probe::frame(homing, origin, east_per_e7, place)
}

/// `frame_of` a guide that each thread makes once.
pub fn frame(framing: Framing) -> Point {
    thread_local!(static HOMING: RefCell<Homing<'static>> = RefCell::new(guide()));
    HOMING.with_borrow_mut(|homing| frame_of(homing, framing))
}

/// `thin::thin`, once question 9 of document 01 is put, and how many passes it made.
pub fn thin(crumbs: &mut [f32], len: usize, mut tolerance: f32) -> Answer {
    if !may_thin(crumbs.len(), len, tolerance) {
        return Answer::refusal(9, tolerance);
    }
    let passes = passes(&mut crumbs.to_vec(), len, tolerance);
    let len = thin_alone(crumbs, len, &mut tolerance);
    Answer { refused: 0, len, tolerance, passes }
}

pub fn may_thin(size: usize, len: usize, tolerance: f32) -> bool {
    let capacity = size / 3;
    size.is_multiple_of(3) && (3..=4_096).contains(&capacity) && len <= capacity && tolerance >= 0.0
}

pub fn thin_alone(crumbs: &mut [f32], len: usize, tolerance: &mut f32) -> usize {
    thin::thin(crumbs.as_chunks_mut().0, len, tolerance, place)
}

/// `thin::thin` is `thin_moving` with nobody told. Told of each crumb kept, one counts the passes:
/// each over three crumbs or more moves exactly one crumb to place 1. A pass over two or fewer
/// moves none; it can only be the first, and the last.
fn passes(crumbs: &mut [f32], len: usize, mut tolerance: f32) -> usize {
    let mut passes = 0;
    let count = |to, _| passes += usize::from(to == 1);
    thin::thin_moving(crumbs.as_chunks_mut().0, len, &mut tolerance, place, count);
    passes.max(1)
}

fn place(&[east, north, _]: &[f32; 3]) -> Point {
    (east, north)
}
