//! The lines on which `thin` is compared.
use crate::inputs::{EDGES, Inputs};
use crate::random::Random;
use crate::thinning::Line;
use crate::{Point, reference};

/// Calls of `thin`, one in 16 to be refused.
pub fn lines(full: bool, seed: u64) -> Inputs<impl Fn(u64) -> Line + Sync> {
    let at = move |k| {
        let random = &mut Random::new(seed, k);
        if random.below(16) == 0 { refused(random) } else { some_line(random) }
    };
    Inputs { len: if full { 1 << 24 } else { 1 << 20 }, at }
}

/// A line that may be thinned. The crumbs behind it are filled as well.
fn some_line(random: &mut Random) -> Line {
    let capacity = match random.below(2_048) {
        0 => 4_096,
        1 => 3 + random.below(4_094),
        2..16 => random.pick(&[256, 257, 258, 259]),
        16..32 => 3 + random.below(598),
        32..512 => 3 + random.below(62),
        _ => 3 + random.below(14),
    };
    let target = capacity * 3 / 4;
    let len = match random.below(8) {
        0 => random.below(capacity + 1),
        1 => random.pick(&[0, 1, 2, 3, target, target + 1]),
        _ => capacity,
    };
    let places = places(capacity, random);
    let mut line = Line::full(&places, tolerance(&places, random));
    for along in line.crumbs.iter_mut().skip(2).step_by(3) {
        *along = pattern(random);
    }
    Line { len, ..line }
}

/// A line with one thing wrong.
fn refused(random: &mut Random) -> Line {
    let mut line = some_line(random);
    match random.below(6) {
        0 => line.crumbs.resize(line.crumbs.len() + 1 + random.below(2), pattern(random)),
        1 => {
            line.crumbs.truncate(3 * random.below(3));
            line.len = line.len.min(line.capacity());
        }
        2 => line.crumbs.resize(3 * 4_097, pattern(random)),
        3 => line.len = random.pick(&[line.capacity() + 1, 4_097, 1 << 63, usize::MAX]),
        4 => line.tolerance = random.pick(&[f32::NAN, -f32::NAN, f32::from_bits(0x7f80_0001)]),
        _ => line.tolerance = random.pick(&[-f32::from_bits(1), -6.0, f32::NEG_INFINITY]),
    }
    line
}

/// 0 or more.
fn tolerance(places: &[Point], random: &mut Random) -> f32 {
    match random.below(8) {
        0 => f32::from_bits(random.below(0x7f80_0001) as u32),
        1 => random.pick(&[0.0, -0.0, f32::from_bits(1), f32::MIN_POSITIVE, f32::MAX]),
        2 => random.pick(&[0.0, 0.5, 1.0, 2.0, f32::INFINITY]),
        3 => hit(places, random),
        _ => 6.0,
    }
}

/// What is, doubled up to 16 times, a distance in the line.
fn hit(places: &[Point], random: &mut Random) -> f32 {
    let k = random.below(places.len() - 2);
    let off = reference::off_segment([places[k + 1], places[k], places[k + 2]]);
    let tolerance = off / (1 << random.below(17)) as f32;
    if tolerance.is_nan() { 6.0 } else { tolerance }
}

fn pattern(random: &mut Random) -> f32 {
    f32::from_bits(random.word())
}

/// Places of one shape; some of them strange, repeated, or the same on the way back.
fn places(count: usize, random: &mut Random) -> Vec<Point> {
    let mut places = match random.below(7) {
        0 => (0..count).map(|_| (pattern(random), pattern(random))).collect(),
        1 => (0..count).map(|_| (random.pick(&EDGES), random.pick(&EDGES))).collect(),
        2 => (0..count).map(|_| (random.within(1) as f32, random.within(1) as f32)).collect(),
        3 => road(count, random),
        4 => straight(count, (random.within(400) as f32 / 16.0, random.within(400) as f32 / 7.0)),
        5 => zigzag(count, swing(random)),
        _ => {
            let swing = swing(random);
            (0..count).map(|k| (20.0 * k as f32, swing * random.within(8) as f32)).collect()
        }
    };
    match random.below(12) {
        0 => places[random.below(count)] = (pattern(random), pattern(random)),
        1 => places[random.below(count)].1 = random.pick(&EDGES),
        2 => (1..count).filter(|_| random.below(2) == 0).for_each(|k| places[k] = places[k - 1]),
        3 => (count / 2..count).for_each(|k| places[k] = places[count - 1 - k]),
        _ => {}
    }
    places
}

/// The lines whose thinning is measured: a word, a title, and the places.
pub fn measured(count: usize) -> [(&'static str, &'static str, Vec<Point>); 5] {
    [
        ("road", "winding road", road(count, &mut Random::new(1, 0))),
        ("east", "straight line east", straight(count, (10.0, 0.0))),
        ("slanted", "slanted straight line", straight(count, (7.3, 4.1))),
        ("zigzag", "zigzag of 300,000 m", zigzag(count, 300_000.0)),
        ("far-zigzag", "zigzag of 10,000,000 m", zigzag(count, 10_000_000.0)),
    ]
}

/// A winding road, a place every few metres.
fn road(count: usize, random: &mut Random) -> Vec<Point> {
    let (mut east, mut north) = (random.within(1 << 20), random.within(1 << 20));
    let (mut speed_east, mut speed_north) = (random.within(40), random.within(40));
    let mut next = || {
        speed_east = (speed_east + random.within(6)).clamp(-40, 40);
        speed_north = (speed_north + random.within(6)).clamp(-40, 40);
        (east, north) = (east + speed_east, north + speed_north);
        (east as f32 / 4.0, north as f32 / 4.0)
    };
    (0..count).map(|_| next()).collect()
}

pub fn straight(count: usize, step: Point) -> Vec<Point> {
    (0..count).map(|k| (step.0 * k as f32, step.1 * k as f32)).collect()
}

/// North alternately 0 and `swing`.
pub fn zigzag(count: usize, swing: f32) -> Vec<Point> {
    (0..count).map(|k| (10.0 * k as f32, if k % 2 == 0 { 0.0 } else { swing })).collect()
}

/// From 1 to 2^22: at tolerance 6, a zigzag of each number of passes.
fn swing(random: &mut Random) -> f32 {
    (1 << random.below(22)) as f32 * (1.0 + random.below(256) as f32 / 256.0)
}
