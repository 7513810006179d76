//! Prints by the Rust what the proved program `places` prints: its stored output is this text.
use compare::options::{none, print, program};
use compare::reference::{bearing, distance, east_per_e7, frame, metres};
use std::process::ExitCode;

const FIXES: [(i32, i32); 12] = [
    (594370000, 1799998000),
    (594370900, 1799998000),
    (594372000, 1799999900),
    (594371100, -1799999100),
    (594365000, -1799990000),
    (594370000, 1799998000),
    (899999990, 1799998000),
    (900000000, 0),
    (0, -1),
    (-10, 1),
    (-594370000, -2000),
    (594370000, -1800000000),
];

const USAGE: &str = "\
usage: places
Prints the stored output of the proved program `places`, by the Rust.
";

fn main() -> ExitCode {
    program(USAGE, none, |()| print(lines().concat()).map(|()| true))
}

fn lines() -> Vec<String> {
    let origin = FIXES[0];
    let east_per_e7 = east_per_e7(origin.0);
    let mut before = (0.0, 0.0);
    let line = |fix| {
        let here = frame((origin, east_per_e7, fix));
        let (east, north) = (here.0.to_bits(), here.1.to_bits());
        let (way, far) = (bearing([before, here]), metres(distance([before, here])));
        before = here;
        format!("{east:08x} {north:08x} bearing {way} metres {far}\n")
    };
    FIXES.into_iter().map(line).collect()
}
