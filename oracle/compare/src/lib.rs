//! The proved code beside the handed-over Rust.
pub mod by_program;
pub mod chain;
pub mod chains;
pub mod classes;
pub mod compared;
pub mod coverage;
pub mod door;
pub mod driver;
pub mod guide;
pub mod homing;
pub mod inputs;
pub mod lines;
pub mod longest;
pub mod measure;
pub mod options;
pub mod original;
pub mod prepared;
pub mod program;
pub mod proved;
pub mod questions;
pub mod random;
pub mod recording;
pub mod reference;
pub mod refusals;
pub mod retelling;
pub mod riders;
pub mod script;
pub mod shorten;
pub mod step;
pub mod stored;
pub mod thinning;
pub mod transcript;
pub mod trials;
pub mod value;
pub mod words;

/// Metres east and north.
pub type Point = (f32, f32);
/// Latitude and longitude in 1e-7 degree.
pub type Place = (i32, i32);
/// The origin, its east factor, and the place to put into its frame.
pub type Framing = (Place, f32, Place);

/// A number with commas between its thousands.
pub fn grouped(number: usize) -> String {
    match number {
        0..1_000 => number.to_string(),
        _ => format!("{},{:03}", grouped(number / 1_000), number % 1_000),
    }
}
