//! Classes of calls of `thin`: a comparison has to meet each.
use crate::thinning::{Answer, Line};
use std::sync::atomic::{AtomicU64, Ordering::Relaxed};

/// The number of the refusal or 0, a name, and what holds of the class's calls.
type Class = (u8, &'static str, fn(&Line, &Answer) -> bool);

pub const CLASSES: [Class; 27] = [
    (0, "1 pass", |_, answer| answer.passes == 1),
    (0, "2 to 16 passes", |_, answer| (2..=16).contains(&answer.passes)),
    (0, "17 passes", |_, answer| answer.passes == 17),
    (0, "18 passes", |_, answer| answer.passes == 18),
    (0, "a NaN in a place", |line, _| has(line, f32::is_nan)),
    (0, "an infinity in a place", |line, _| has(line, f32::is_infinite)),
    (0, "a subnormal number in a place", |line, _| has(line, f32::is_subnormal)),
    (0, "a 0 in a place", |line, _| has(line, |x| x.to_bits() == 0)),
    (0, "a -0 in a place", |line, _| has(line, |x| x.to_bits() == 1 << 31)),
    (0, "tolerance 0", |line, _| line.tolerance.to_bits() == 0),
    (0, "tolerance -0", |line, _| line.tolerance.to_bits() == 1 << 31),
    (0, "tolerance below 1e-30", |line, _| 0.0 < line.tolerance && line.tolerance < 1e-30),
    (0, "tolerance 6", |line, _| line.tolerance == 6.0),
    (0, "tolerance above 1e30", |line, _| line.tolerance > 1e30 && line.tolerance.is_finite()),
    (0, "tolerance infinity", |line, _| line.tolerance == f32::INFINITY),
    (0, "length 0", |line, _| line.len == 0),
    (0, "length 1", |line, _| line.len == 1),
    (0, "length 2", |line, _| line.len == 2),
    (0, "length 3", |line, _| line.len == 3),
    (0, "length C", |line, _| line.len == line.capacity()),
    (0, "C from 257", |line, _| line.capacity() > 256),
    (9, "size not a multiple of 3", |line, _| !line.crumbs.len().is_multiple_of(3)),
    (9, "C 0 to 2", |line, _| line.capacity() < 3),
    (9, "C from 4,097", |line, _| line.capacity() > 4_096),
    (9, "length above C", |line, _| line.len > line.capacity()),
    (9, "tolerance NaN", |line, _| line.tolerance.is_nan()),
    (9, "tolerance below 0", |line, _| line.tolerance < 0.0),
];

/// Whether a crumb to be thinned has such an east or north.
fn has(line: &Line, such: impl Fn(f32) -> bool) -> bool {
    line.crumbs[..3 * line.len].chunks(3).any(|crumb| such(crumb[0]) || such(crumb[1]))
}

pub fn meets(class: &Class, line: &Line, answer: &Answer) -> bool {
    class.0 == answer.refused && class.2(line, answer)
}

/// How many calls of each class there were.
#[derive(Default)]
pub struct Met([AtomicU64; CLASSES.len()]);

impl Met {
    pub fn note(&self, line: &Line, answer: &Answer) {
        for (class, count) in CLASSES.iter().zip(&self.0) {
            if meets(class, line, answer) {
                count.fetch_add(1, Relaxed);
            }
        }
    }

    /// Prints the counts; whether none is 0.
    pub fn print(&self) -> bool {
        for ((refused, name, _), count) in CLASSES.iter().zip(&self.0) {
            let refused = if *refused == 0 { "" } else { "refused, " };
            println!("  {refused}{name}: {}", count.load(Relaxed));
        }
        self.0.iter().all(|count| count.load(Relaxed) > 0)
    }
}
