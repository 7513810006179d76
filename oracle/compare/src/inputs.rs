//! The inputs on which the functions are compared.
use crate::random::Random;
use crate::{Framing, Place, Point, reference};
use std::array::from_fn;
use std::f32::consts::{FRAC_PI_2, FRAC_PI_4};

const POLE: i32 = 900_000_000;
const HALF_TURN: i32 = 1_800_000_000;

/// A numbered list: `at(k)` for each `k` below `len`.
pub struct Inputs<F> {
    pub len: u64,
    pub at: F,
}

impl<T, F: Fn(u64) -> T + Sync> Inputs<F> {
    fn then(self, next: Inputs<impl Fn(u64) -> T + Sync>) -> Inputs<impl Fn(u64) -> T + Sync> {
        let at = move |k| if k < self.len { (self.at)(k) } else { (next.at)(k - self.len) };
        Inputs { len: self.len + next.len, at }
    }

    fn map<U>(self, to: impl Fn(T) -> U + Sync) -> Inputs<impl Fn(u64) -> U + Sync> {
        Inputs { len: self.len, at: move |k| to((self.at)(k)) }
    }
}

/// From `first` to `last`, one in `stride`.
fn every(stride: u64, first: i64, last: i64) -> Inputs<impl Fn(u64) -> i64 + Sync> {
    let len = (last - first) as u64 / stride + 1;
    Inputs { len, at: move |k| first + (k * stride) as i64 }
}

/// Each of `marks` and the numbers up to `reach` below and above it.
fn near(reach: u64, marks: Vec<i64>) -> Inputs<impl Fn(u64) -> i64 + Sync> {
    let width = 2 * reach + 1;
    let len = marks.len() as u64 * width;
    let at = move |k| marks[(k / width) as usize] + (k % width) as i64 - reach as i64;
    Inputs { len, at }
}

/// Every choice of `N` from `list`.
fn cross<T: Copy + Sync, const N: usize>(list: Vec<T>) -> Inputs<impl Fn(u64) -> [T; N] + Sync> {
    let base = list.len() as u64;
    let at = move |mut k| {
        from_fn(|_| {
            let digit = k % base;
            k /= base;
            list[digit as usize]
        })
    };
    Inputs { len: base.pow(N as u32), at }
}

/// 2^24 of what `make` makes.
fn random<T>(
    seed: u64,
    make: impl Fn(&mut Random) -> T + Sync,
) -> Inputs<impl Fn(u64) -> T + Sync> {
    Inputs { len: 1 << 24, at: move |k| make(&mut Random::new(seed, k)) }
}

fn stride(full: bool) -> u64 {
    if full { 1 } else { 61 }
}

/// Patterns of f32: all, or a spread with all that are near a power of two, a zero, an infinity, or
/// an angle at which `cosf` changes.
pub fn patterns(full: bool) -> Inputs<impl Fn(u64) -> f32 + Sync> {
    let powers = (0..1 << 9).map(|exponent| exponent << 23);
    let angles = [FRAC_PI_4, -FRAC_PI_4, FRAC_PI_2, -FRAC_PI_2].map(|r| r.to_bits().into());
    let marks = if full { Vec::new() } else { powers.chain(angles).collect() };
    every(stride(full), 0, u32::MAX.into())
        .then(near(4_096, marks))
        .map(|p| f32::from_bits(p as u32))
}

/// Latitudes: all or a spread of those on the globe, the equator, the poles and where `cosf`
/// changes, and any.
pub fn latitudes(full: bool, seed: u64) -> Inputs<impl Fn(u64) -> i32 + Sync> {
    let pole = i64::from(POLE);
    every(stride(full), -pole, pole)
        .then(near(100_000, vec![-pole, -pole / 2, 0, pole / 2, pole]))
        .map(|lat| lat as i32)
        .then(random(seed, |random| random.word() as i32))
}

/// Differences of two i32, and a few beyond.
pub fn differences(seed: u64) -> Inputs<impl Fn(u64) -> i64 + Sync> {
    let powers = (0..=32).flat_map(|k| [1 << k, -1 << k]).collect();
    near(4_096, powers).then(random(seed, |random| match random.below(4) {
        0 => random.bits() as i64 >> random.below(64),
        1 => i64::from(random.word() as i32) - i64::from(random.word() as i32),
        _ => tie(random),
    }))
}

/// Halfway between two neighbouring f32, or one off it.
fn tie(random: &mut Random) -> i64 {
    let (mantissa, shift) = (1 << 23 | random.below(1 << 23), 1 + random.below(8));
    let size = ((2 * mantissa + 1) << (shift - 1)) as i64 + i64::from(random.within(1));
    size * random.pick(&[1, -1])
}

/// In the bounded run six coordinates take every combination of the first 16 only.
pub const EDGES: [f32; 24] = [
    0.0,
    -0.0,
    f32::from_bits(1), // the smallest subnormal
    -f32::from_bits(1),
    f32::from_bits(0x007f_ffff), // the largest subnormal
    f32::MIN_POSITIVE,
    1.0,
    -1.0,
    33_554_432.0, // 2^25
    -33_554_432.0,
    18_446_744_073_709_551_616.0, // 2^64, whose square is too large
    f32::MAX,
    f32::MIN,
    f32::INFINITY,
    f32::NEG_INFINITY,
    f32::NAN,
    -f32::from_bits(0x007f_ffff),
    -f32::MIN_POSITIVE,
    -18_446_744_073_709_551_616.0,
    2.646_978e-23, // 2^-75, whose square is too small
    -2.646_978e-23,
    0.5,
    0.414_213_56, // where `atan2f` changes
    100_000_000.0,
];

/// Points: every combination of edges, and random ones.
pub fn points<const N: usize>(full: bool, seed: u64) -> Inputs<impl Fn(u64) -> [Point; N] + Sync> {
    let edges = if full || N < 3 { &EDGES[..] } else { &EDGES[..16] };
    let corners = edges.iter().flat_map(|&east| edges.iter().map(move |&north| (east, north)));
    cross(corners.collect()).then(random(seed, some_points))
}

/// Single points: a way east and north.
pub fn ways(full: bool, seed: u64) -> Inputs<impl Fn(u64) -> Point + Sync> {
    points(full, seed).map(|[way]| way)
}

/// Points of one kind; some of them equal, or with the first on the segment of the others.
fn some_points<const N: usize>(random: &mut Random) -> [Point; N] {
    let kind = random.below(5);
    let mut points = from_fn(|_| (coordinate(kind, random), coordinate(kind, random)));
    match random.below(4) {
        0 => points[random.below(N)] = points[random.below(N)],
        1 => {
            let (a, b, t) = (points[N / 2], points[N - 1], random.below(17) as f32 / 16.0);
            points[0] = (a.0 + t * (b.0 - a.0), a.1 + t * (b.1 - a.1));
        }
        _ => {}
    }
    points
}

fn coordinate(kind: usize, random: &mut Random) -> f32 {
    match kind {
        0 => f32::from_bits(random.word()),
        1 => random.word() as i32 as f32 / 64.0, // within 2^25 m
        2 => random.word() as i32 as f32 / 1_048_576.0, // within 2^11 m
        3 => random.within(4) as f32,
        _ => random.pick(&EDGES),
    }
}

/// Origins and places: every combination of edges, and random ones.
pub fn framings(seed: u64) -> Inputs<impl Fn(u64) -> Framing + Sync> {
    let sizes = [1, POLE - 1, POLE, POLE + 1, HALF_TURN - 1, HALF_TURN, HALF_TURN + 1, i32::MAX];
    let edges = sizes.into_iter().flat_map(|size| [size, -size]).chain([0, i32::MIN]).collect();
    cross(edges)
        .map(|[lat0, lon0, lat, lon]| ((lat0, lon0), reference::east_per_e7(lat0), (lat, lon)))
        .then(random(seed, some_framing))
}

fn some_framing(random: &mut Random) -> Framing {
    let (mut origin, mut place) = (on_the_globe(random), on_the_globe(random));
    match random.below(5) {
        0 => place = (origin.0 + random.within(1 << 20), origin.1 + random.within(1 << 20)),
        1 => (origin.0, place.0) = (random.pick(&[-POLE, POLE]), random.pick(&[-POLE, POLE])),
        2 => place.1 = origin.1 - origin.1.signum() * HALF_TURN + random.within(1),
        3 => (origin, place) = (anywhere(random), anywhere(random)),
        _ => {}
    }
    let usual = reference::east_per_e7(origin.0);
    let factor = if random.below(8) == 0 { f32::from_bits(random.word()) } else { usual };
    (origin, factor, place)
}

fn on_the_globe(random: &mut Random) -> Place {
    (random.within(POLE), random.within(HALF_TURN))
}

fn anywhere(random: &mut Random) -> Place {
    (random.word() as i32, random.word() as i32)
}
