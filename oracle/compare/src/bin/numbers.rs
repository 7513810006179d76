//! Compares the functions on numbers.
use compare::options::{Options, program};
use compare::value::equal;
use compare::{inputs, proved, reference};
use std::f32::consts::FRAC_PI_2;
use std::process::ExitCode;

const USAGE: &str = "\
usage: numbers [--full] [--seed N] [--self-test]
Compares each proved function on numbers with the Rust's.
  --full        on all 2^32 patterns and every latitude, in place of a spread
  --seed N      other random inputs (1)
  --self-test   mistakes in the place of the Rust; each has to be found
";

fn main() -> ExitCode {
    program(USAGE, Options::read, |Options { full, seed, self_test }| {
        Ok(if self_test { mistakes(seed) } else { functions(full, seed) })
    })
}

/// Whether each proved function equals the Rust's.
fn functions(full: bool, seed: u64) -> bool {
    let patterns = inputs::patterns(full);
    let differences = inputs::differences(seed);
    let latitudes = inputs::latitudes(full, seed);
    let ways = inputs::ways(full, seed);
    let pairs = inputs::points::<2>(full, seed);
    let triples = inputs::points::<3>(full, seed);
    let framings = inputs::framings(seed);
    let thin = reference::off_segment_of_thin;
    let lines = [
        equal("sqrtf", &patterns, proved::sqrtf, reference::sqrtf),
        equal("as_u32", &patterns, proved::as_u32, reference::as_u32),
        equal("as_f32", &differences, proved::as_f32, reference::as_f32),
        equal("clamp", &patterns, proved::clamp, reference::clamp),
        equal("max_zero", &patterns, proved::max_zero, reference::max_zero),
        equal("cosf", &patterns, proved::cosf, reference::cosf),
        equal("atan2f", &ways, proved::atan2f, reference::atan2f),
        equal("distance", &pairs, proved::distance, reference::distance),
        equal("project", &triples, proved::project, reference::project),
        equal("off_segment", &triples, proved::off_segment, reference::off_segment),
        equal("off_segment (thin.rs)", &triples, proved::off_segment, thin),
        equal("bearing", &pairs, proved::bearing, reference::bearing),
        equal("metres", &patterns, proved::metres, reference::metres),
        equal("east_per_e7", &latitudes, proved::east_per_e7, reference::east_per_e7),
        equal("frame", &framings, proved::frame, reference::frame),
    ];
    !lines.contains(&false)
}

/// Whether each mistake is found. Most are right but for a few inputs.
fn mistakes(seed: u64) -> bool {
    let patterns = inputs::patterns(false);
    let differences = inputs::differences(seed);
    let latitudes = inputs::latitudes(false, seed);
    let ways = inputs::ways(false, seed);
    let pairs = inputs::points::<2>(false, seed);
    let triples = inputs::points::<3>(false, seed);
    let framings = inputs::framings(seed);
    let another_nan = equal("no mistake, another NaN", &patterns, proved::sqrtf, |x| {
        if x < 0.0 { f32::from_bits(0x7fab_cdef) } else { x.sqrt() }
    });
    let missed = [
        equal("sqrtf without the sign of -0", &patterns, proved::sqrtf, |x| x.sqrt() + 0.0),
        equal("as_u32 that wraps", &patterns, proved::as_u32, |x| x as u64 as u32),
        equal("as_u32 with a NaN at the top", &patterns, proved::as_u32, |x| {
            if x.is_nan() { u32::MAX } else { x as u32 }
        }),
        equal("as_f32 that rounds twice", &differences, proved::as_f32, |d| {
            reference::as_f32(d / 16 * 16) + (d % 16) as f32
        }),
        equal("as_f32 without an end", &differences, proved::as_f32, |d| d as f32),
        equal("clamp with a NaN at 0", &patterns, proved::clamp, |x| {
            if x.is_nan() { 0.0 } else { x.clamp(0.0, 1.0) }
        }),
        equal("max_zero that lets a NaN pass", &patterns, proved::max_zero, |x| {
            if x <= 0.0 { 0.0 } else { x }
        }),
        equal("cosf with the true cosine at pi/2", &patterns, proved::cosf, |r| {
            if r == FRAC_PI_2 { r.cos() } else { reference::cosf(r) }
        }),
        equal("atan2f with a sign at 0", &ways, proved::atan2f, |way| {
            if way == (0.0, 0.0) { way.0 } else { reference::atan2f(way) }
        }),
        equal("atan2f with base pi/4 at 0.41421356", &ways, proved::atan2f, |way| match way {
            (0.414_213_56, 1.0) => f32::from_bits(0x3ec9_0fda),
            _ => reference::atan2f(way),
        }),
        equal("distance that rounds once", &pairs, proved::distance, |[a, b]| {
            f64::from(b.0 - a.0).hypot(f64::from(b.1 - a.1)) as f32
        }),
        equal("project, t 1 on length 0", &triples, proved::project, |[p, a, b]| {
            if a == b { (b, 1.0) } else { reference::project([p, a, b]) }
        }),
        equal("off_segment, 0 at the end", &triples, proved::off_segment, |[p, a, b]| {
            if p == b { 0.0 } else { reference::off_segment([p, a, b]) }
        }),
        equal("bearing of a whole turn", &pairs, proved::bearing, |[from, to]| {
            match reference::bearing([from, to]) {
                0 if to.0 < from.0 => 4_096,
                bearing => bearing,
            }
        }),
        equal("metres, the sum not rounded", &patterns, proved::metres, |x| x.round() as u32),
        equal("east_per_e7 that stops at the pole", &latitudes, proved::east_per_e7, |lat| {
            reference::east_per_e7(lat.min(900_000_000))
        }),
        equal("frame that wraps at half a turn", &framings, proved::frame, |framing| {
            let (origin, _, place) = framing;
            let (east, north) = reference::frame(framing);
            let half = i64::from(place.1) - i64::from(origin.1) == 1_800_000_000;
            (if half { -east } else { east }, north)
        }),
    ];
    let found = missed.iter().filter(|&&missed| !missed).count();
    println!("{found} of {} mistakes found", missed.len());
    another_nan && found == missed.len()
}
