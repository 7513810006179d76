//! The entries of random logs.
use crate::Place;
use crate::chain::{HALF_TURN, MOST, POLE, Record, SAMPLES, Sample};
use crate::random::Random;

/// The entries of a log, from anywhere on.
pub fn entries(recovered: u32, random: &mut Random) -> Vec<Record> {
    let mut rider = Rider::new(recovered, random);
    let count = match random.below(32) {
        0 => return rider.fills_the_guide(random),
        1 => return rider.weaves_on(random),
        2..5 => MOST - 1,
        5 => 400 + random.below(MOST - 400),
        6 | 7 => random.below(MOST),
        8..12 => random.below(120),
        _ => random.below(12),
    };
    rider.log(count, random)
}

/// The same from a place on, and so many.
pub fn entries_from(
    (lat, lon): Place,
    recovered: u32,
    count: usize,
    random: &mut Random,
) -> Vec<Record> {
    let (lat, lon) = (lat.into(), lon.into());
    let mut rider = Rider { lat, lon, middle: lat, ..Rider::new(recovered, random) };
    rider.log(count, random)
}

/// Whoever rode the log: where the next sample is, and when.
struct Rider {
    recovered: u32,
    shape: usize,
    lat: i64,
    lon: i64,
    speed: (i64, i64),
    /// How wide a road winds, and how far a zigzag goes aside.
    scale: i64,
    swing: i64,
    /// The latitude about which the rider weaves.
    middle: i64,
    /// Places ridden, to be ridden back.
    path: Vec<(i64, i64)>,
    back: bool,
    utc_ms: u64,
    /// When the recovered ride's latest fix was.
    last_utc: u64,
    /// The later ride has had a fix.
    decided: bool,
    /// One sample in so many has no place; the same for the time.
    unlocated: usize,
    untimed: usize,
    /// Only Samples entries, all full, and one shape.
    plain: bool,
}

const SHAPES: usize = 10;

impl Rider {
    fn new(recovered: u32, random: &mut Random) -> Self {
        let (lat, lon) = match random.below(4) {
            0 => (random.within(POLE), random.within(HALF_TURN)),
            1 => (random.within(POLE), random.pick(&[-HALF_TURN, HALF_TURN])),
            2 => (random.pick(&[-POLE, POLE]), random.within(HALF_TURN)),
            _ => (random.within(600_000_000), random.within(HALF_TURN)),
        };
        let utc_ms = if random.below(16) == 0 { random.bits() } else { random.bits() >> 23 };
        Self {
            recovered,
            shape: random.below(SHAPES),
            lat: lat.into(),
            lon: lon.into(),
            speed: (random.within(2_000).into(), random.within(2_000).into()),
            scale: 1 << random.pick(&[0, 0, 0, 2, 5, 8, 11]),
            swing: 90 << random.below(23),
            middle: lat.into(),
            path: Vec::new(),
            back: false,
            utc_ms,
            last_utc: utc_ms,
            decided: false,
            unlocated: random.pick(&[2, 16, 1_000]),
            untimed: random.pick(&[1, 2, 16, 1_000, 1_000]),
            plain: random.below(4) == 0,
        }
    }

    /// Some entries of older rides, then the recovered ride, then often a later one; in some logs here and
    /// there an entry of any of them.
    fn log(&mut self, count: usize, random: &mut Random) -> Vec<Record> {
        let recovered = self.recovered;
        let older = if random.below(2) == 0 { random.below(4) } else { 0 };
        let later = if random.below(4) == 0 { count } else { random.below(count + 1) };
        let strays = !self.plain && random.below(2) == 0;
        let mut entry = |k| {
            let ride = match random.below(24) {
                0 if strays => recovered.saturating_sub(1 + random.below(3) as u32),
                1 if strays => recovered,
                2 if strays => recovered.saturating_add(1 + random.below(2) as u32),
                3 if strays => random.pick(&[0, u32::MAX]),
                _ if k < older && !self.plain => recovered.saturating_sub(1),
                _ if k < later => recovered,
                _ => recovered.saturating_add(1),
            };
            self.entry(ride, random)
        };
        (0..count).map(&mut entry).collect()
    }

    /// A zigzag of about as many places as the guide has room for.
    fn fills_the_guide(mut self, random: &mut Random) -> Vec<Record> {
        (self.shape, self.swing) = (3, 90 << (4 + random.below(8)));
        let mut entries = self.all_of_one(129, random);
        entries[128].count = random.pick(&[0, 1, 1, 1, 2, 3, 4]);
        entries
    }

    /// As much as a file holds of a road that is nearly straight: much can go at a small tolerance.
    fn weaves_on(mut self, random: &mut Random) -> Vec<Record> {
        self.shape = 7;
        self.all_of_one(MOST - 1, random)
    }

    /// So many full entries of the recovered ride, far from the poles.
    fn all_of_one(&mut self, count: usize, random: &mut Random) -> Vec<Record> {
        (self.plain, self.unlocated) = (true, usize::MAX);
        self.lat = random.within(600_000_000).into();
        self.middle = self.lat;
        (0..count).map(|_| self.entry(self.recovered, random)).collect()
    }

    fn entry(&mut self, ride: u32, random: &mut Random) -> Record {
        let kind = if random.below(12) == 0 && !self.plain { 1 + random.below(7) } else { 2 } as u8;
        let full = if kind == 2 { 8 } else { 2 };
        let some = random.below(full) == 0 && !self.plain;
        let count = if some { random.below(SAMPLES + 1) } else { SAMPLES };
        let mut samples = [Sample::default(); SAMPLES];
        for sample in &mut samples[..count] {
            *sample = self.sample(ride, kind, random);
        }
        Record { next: 0, ride, kind, count: count as u8, samples }
    }

    fn sample(&mut self, ride: u32, kind: u8, random: &mut Random) -> Sample {
        let place = (random.below(self.unlocated) != 0).then(|| self.place(random));
        let timed = random.below(self.untimed) != 0;
        self.utc_ms = self.utc_ms.saturating_add(1_000);
        if place.is_some() && kind == 2 && !self.decided {
            if ride > self.recovered {
                self.decided = true;
                self.utc_ms = beside(self.last_utc, random);
            } else if ride == self.recovered && timed {
                self.last_utc = self.utc_ms;
            }
        }
        Sample { place, utc_ms: timed.then_some(self.utc_ms) }
    }

    /// Where the rider goes next.
    fn place(&mut self, random: &mut Random) -> Place {
        if !self.plain && random.below(256) == 0 {
            self.shape = random.below(SHAPES);
        }
        match self.shape {
            0 => self.goes(random.within(30).into(), random.within(30).into()),
            1 => self.goes(0, self.speed.1 / 4),
            2 => self.goes(self.speed.0, self.speed.1),
            3 | 4 => self.zigzags(),
            5 => (self.lat, self.lon) = self.leaps(random),
            6 => self.turns_round(random),
            7 => self.weaves(random),
            _ => self.winds(random),
        }
        let place = (self.lat as i32, self.lon as i32);
        if self.lon.abs() == i64::from(HALF_TURN) && random.below(2) == 0 {
            return (place.0, -place.1);
        }
        place
    }

    /// On by so much; over a pole it stays on it.
    fn goes(&mut self, north: i64, east: i64) {
        let (pole, half_turn) = (i64::from(POLE), i64::from(HALF_TURN));
        self.lat = (self.lat + north).clamp(-pole, pole);
        self.lon += east;
        if self.lon.abs() > half_turn {
            self.lon -= self.lon.signum() * 2 * half_turn;
        }
    }

    fn winds(&mut self, random: &mut Random) {
        let bend = |speed: i64, by: i32| (speed + i64::from(by)).clamp(-3_000, 3_000);
        let (north, east) = self.speed;
        self.speed = (bend(north, random.within(900)), bend(east, random.within(900)));
        self.goes(self.scale * self.speed.0, self.scale * self.speed.1);
    }

    /// Along a parallel, some metres to the one side or the other.
    fn weaves(&mut self, random: &mut Random) {
        let aside = i64::from(random.within(490));
        self.goes(self.middle + aside - self.lat, 1_500);
    }

    fn zigzags(&mut self) {
        self.swing = -self.swing;
        let aside = if self.lat + self.swing > i64::from(POLE) { 0 } else { self.swing };
        self.goes(aside, 1_500);
    }

    /// Out for a while on a winding road, back over the same places, and out again.
    fn turns_round(&mut self, random: &mut Random) {
        if random.below(64) == 0 {
            self.back = !self.back;
        }
        match self.path.pop_if(|_| self.back) {
            Some(place) => (self.lat, self.lon) = place,
            None => {
                self.back = false;
                self.path.push((self.lat, self.lon));
                self.winds(random);
            }
        }
    }

    /// Anywhere on the globe, or on one of its edges, or half a turn away.
    fn leaps(&mut self, random: &mut Random) -> (i64, i64) {
        let lat = match random.below(3) {
            0 => random.pick(&[-POLE, POLE, 0, POLE - 1, 1 - POLE]),
            _ => random.within(POLE),
        };
        let lon = match random.below(4) {
            0 => random.pick(&[-HALF_TURN, HALF_TURN, 0, HALF_TURN - 1, 1 - HALF_TURN]).into(),
            1 => self.lon - self.lon.signum() * i64::from(HALF_TURN),
            _ => random.within(HALF_TURN).into(),
        };
        (lat.into(), lon)
    }
}

/// A time near `CONTINUE_MS` from another, or any.
fn beside(utc_ms: u64, random: &mut Random) -> u64 {
    match random.below(12) {
        0 | 1 => utc_ms.saturating_add(1_800_000),
        2 | 3 => utc_ms.saturating_add(1_800_001),
        4 => utc_ms.saturating_sub(1_800_000),
        5 => utc_ms.saturating_sub(1_800_001),
        6 => random.bits(),
        7 => utc_ms,
        8 => utc_ms.saturating_add((1 << 32) + random.below(4_000_000) as u64),
        9 => utc_ms.saturating_sub(random.below(4_000_000) as u64),
        _ => utc_ms.saturating_add(random.below(1_800_000) as u64),
    }
}
