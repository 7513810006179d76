//! Metres on the ground, and places on the globe.
use crate::Place;
use crate::random::Random;
use crate::reference::east_per_e7;

/// Metres east and north of a base.
pub type Spot = (f64, f64);

pub const LAT_MAX: i64 = 900_000_000;
pub const LON_MAX: i64 = 1_800_000_000;
pub const M_PER_E7: f64 = 0.011_119_508;

pub fn distance(a: Spot, b: Spot) -> f64 {
    let (east, north) = (b.0 - a.0, b.1 - a.1);
    (east * east + north * north).sqrt()
}

/// So far from `at`: `on` this way, a vector of length 1, and `aside` to its right.
pub fn beyond(at: Spot, way: Spot, on: f64, aside: f64) -> Spot {
    (at.0 + on * way.0 + aside * way.1, at.1 + on * way.1 - aside * way.0)
}

/// The way from one spot to another, if they are more than a metre apart.
pub fn way(from: Spot, to: Spot) -> Option<Spot> {
    let length = distance(from, to);
    (length > 1.0).then(|| ((to.0 - from.0) / length, (to.1 - from.1) / length))
}

/// A way turned by twice the angle of this tangent.
pub fn turned(way: Spot, tangent: f64) -> Spot {
    let square = tangent * tangent;
    let (cos, sin) = ((1.0 - square) / (1.0 + square), 2.0 * tangent / (1.0 + square));
    (way.0 * cos + way.1 * sin, way.1 * cos - way.0 * sin)
}

/// The spot this far along `path`.
pub fn along(path: &[Spot], mut at: f64) -> Option<Spot> {
    for pair in path.windows(2) {
        let length = distance(pair[0], pair[1]);
        if (0.0..length).contains(&at) {
            let (t, [a, b]) = (at / length, [pair[0], pair[1]]);
            return Some((a.0 + t * (b.0 - a.0), a.1 + t * (b.1 - a.1)));
        }
        at -= length;
    }
    None
}

/// Where the metres count from.
#[derive(Clone, Copy)]
pub struct Base {
    pub lat: i64,
    pub lon: i64,
    /// Metres in 1e-7 degree of longitude.
    pub east_m: f64,
}

impl Base {
    pub fn at(lat: i64, lon: i64) -> Self {
        Self { lat, lon, east_m: f64::from(east_per_e7(lat as i32)).max(1e-8) }
    }

    /// An ordinary place, or one where the globe is special.
    pub fn any(random: &mut Random) -> Self {
        let (near, sign) = (random.pick(&[0, 1, 100, 50_000]), random.pick(&[-1, 1]));
        let (lat, lon) = (any(random, 600_000_000), any(random, LON_MAX));
        match random.below(10) {
            0..5 => Self::at(lat, lon),
            5..7 => Self::at(lat, sign * (LON_MAX - near)),
            7 => Self::at(sign * (LAT_MAX - near), lon),
            8 => Self::at(near, -near),
            _ => Self::at(any(random, LAT_MAX), lon),
        }
    }

    /// Past a pole the pole, past the antimeridian round the globe.
    pub fn place(&self, (east, north): Spot) -> Place {
        let lat = (self.lat + (north / M_PER_E7).round() as i64).clamp(-LAT_MAX, LAT_MAX);
        let lon = self.lon + ((east / self.east_m).round() as i64) % (2 * LON_MAX);
        let lon = match lon.abs() <= LON_MAX {
            true => lon,
            false => (lon + LON_MAX).rem_euclid(2 * LON_MAX) - LON_MAX,
        };
        (lat as i32, lon as i32)
    }

    /// Half a turn away.
    pub fn across(&self) -> i64 {
        if self.lon > 0 { self.lon - LON_MAX } else { self.lon + LON_MAX }
    }
}

fn any(random: &mut Random, most: i64) -> i64 {
    random.real(-most as f64, most as f64) as i64
}

pub fn anywhere(random: &mut Random) -> Place {
    (any(random, LAT_MAX) as i32, any(random, LON_MAX) as i32)
}
