//! What a rider does next.
use super::ground::{LAT_MAX, LON_MAX, M_PER_E7, distance, turned};
use super::rider::Rider;
use crate::script::Call;

/// How often, and what.
type Scene = (usize, fn(&mut Rider));

const SCENES: [Scene; 28] = [
    (14, Rider::straight),
    (14, Rider::zigzag),
    (12, Rider::back),
    (10, Rider::along_course),
    (8, Rider::load_course),
    (4, Rider::weave),
    (2, Rider::twice),
    (4, Rider::press),
    (2, Rider::lose),
    (3, Rider::stand),
    (4, Rider::hop),
    (4, Rider::home),
    (3, Rider::replayed),
    (2, Rider::replay_followed),
    (3, Rider::clock),
    (2, Rider::corner),
    (2, Rider::fill),
    (2, Rider::slip),
    (2, Rider::lattice),
    (2, Rider::remind),
    (1, Rider::restart),
    (1, Rider::barely_out),
    (1, Rider::refused),
    (2, Rider::rebuilt),
    (2, Rider::spoil),
    (1, Rider::thin),
    (1, Rider::ask),
    (1, Rider::anything),
];

impl Rider {
    pub fn scene(&mut self) {
        let all = SCENES.iter().map(|(often, _)| often).sum();
        let mut chosen = self.random.below(all);
        for (often, scene) in SCENES {
            if chosen < often {
                return scene(self);
            }
            chosen -= often;
        }
    }

    pub fn straight(&mut self) {
        let step = self.random.pick(&[2.0, 4.0, 4.99, 5.0, 5.01, 7.0, 15.0, 20.0, 35.0, 60.0]);
        let wobble = self.random.pick(&[0.0, 0.0, 0.5, 3.0, 10.0]);
        let way = turned(self.way, self.random.real(-0.5, 0.5));
        for _ in 0..self.random.between(2, 30) {
            self.way = way;
            let aside = self.random.real(-wobble, wobble);
            self.go(self.ahead(step, aside));
        }
    }

    /// From side to side, so that every point counts.
    pub fn zigzag(&mut self) {
        let step = self.random.real(10.0, 60.0);
        let most = if self.random.once_in(5) { 21 } else { 10 };
        let swing = self.random.real(4.0, 8.0) * (1u64 << self.random.below(most)) as f64;
        let fixes = self.random.between(4, 40);
        self.sway(step, swing, fixes);
    }

    /// As many bends as a larger buffer holds, then perhaps the way back.
    pub fn fill(&mut self) {
        let swing = self.random.real(8.0, 60.0);
        let fixes = self.random.pick(&[60, 60, 60, 130, 310]);
        self.sway(20.0, swing, fixes);
        if self.random.once_in(2) {
            self.set_following(true);
        }
    }

    pub fn beside(&mut self) -> f64 {
        const BESIDE: [f64; 16] = [
            0.0, 0.0, 0.0, 0.0, 0.0, 4.0, -4.0, 15.0, 19.0, 24.0, 26.0, 49.0, 52.0, -70.0, 200.0,
            520.0,
        ];
        self.random.pick(&BESIDE)
    }

    /// Turn round and ride back over the trail.
    pub fn back(&mut self) {
        let path = self.way_back();
        let (step, fixes) = (self.random.real(14.0, 40.0), self.random.between(5, 50));
        let swing = self.random.pick(&[0.0, 0.0, 0.0, 3.0, 7.0, 13.0]);
        let aside = if self.random.once_in(3) { self.beside() } else { 0.0 };
        if self.random.once_in(4) {
            self.set_following(true);
        }
        self.walk(&path, step, aside, swing, fixes);
    }

    /// Back over the trail with the follow pressed on and off, then on from farther back.
    pub fn slip(&mut self) {
        let mut path = self.way_back();
        let (step, fixes) = (self.random.real(16.0, 30.0), self.random.between(6, 30));
        self.walk(&path, step, 0.0, 0.0, fixes);
        self.set_following(true);
        self.go(self.ahead(step, 0.0));
        self.set_following(false);
        let (here, skip) = (self.here, self.random.real(280.0, 450.0));
        path.retain(|&spot| distance(spot, here) > skip);
        let fixes = self.random.between(2, 9);
        self.walk(&path, step, 0.0, 0.0, fixes);
    }

    /// Following back, off the trail, and standing there.
    pub fn remind(&mut self) {
        self.set_following(true);
        let aside = self.random.pick(&[52.0, 60.0, 120.0, 400.0]);
        let path = self.way_back();
        self.walk(&path, 20.0, aside, 0.0, 3);
        for _ in 0..self.random.between(1, 5) {
            let ms = self.random.pick(&[1_000, 20_000, 57_000, 58_000, 59_000, 60_000, 61_000]);
            self.wait(ms);
            self.tell();
        }
    }

    pub fn hop(&mut self) {
        const FAR: [f64; 9] = [30.0, 45.0, 60.0, 120.0, 480.0, 520.0, 2_000.0, 1e5, 9e6];
        let far = self.random.pick(&FAR);
        if self.random.once_in(2) {
            self.way = turned(self.way, self.random.real(-9.0, 9.0));
        }
        self.go(self.ahead(far, 0.0));
    }

    /// A fix where the globe ends, or half a turn from the base.
    pub fn corner(&mut self) {
        let base = self.base;
        let lat = self.random.pick(&[base.lat, base.lat, -LAT_MAX, 0, LAT_MAX]);
        let lon = self.random.pick(&[base.lon, base.across(), base.across(), -LON_MAX, LON_MAX]);
        let fix = (lat as i32, lon as i32);
        let replays = self.random.once_in(3);
        self.call(match replays {
            true => Call::Replay(fix, self.now_ms),
            false => Call::Observe(Some(fix), self.now_ms),
        });
        self.wait(1_000);
    }

    /// Whole steps of the receiver's grid, straight or exactly diagonal: out, then mostly straight
    /// back, so that angles and ties are exact.
    pub fn lattice(&mut self) {
        let unit = self.random.pick(&[450.0, 900.0, 1_350.0, 1_800.0]) * M_PER_E7;
        let (across, on) = self.random.pick(&[(0.0, 1.0), (1.0, 0.0), (0.0, -1.0), (1.0, 1.0)]);
        let (out, back) = (self.random.between(10, 40), self.random.between(10, 40));
        for _ in 0..out {
            self.go((self.here.0 + across * unit, self.here.1 + on * unit));
        }
        for _ in 0..back {
            let aside = self.random.pick(&[0.0, 0.0, 0.0, 0.0, 0.0, 0.0, -1.0, 1.0]);
            let (east, north) = (-across + aside * on, -on + aside * across);
            self.go((self.here.0 + east * unit, self.here.1 + north * unit));
        }
    }

    /// To the start, or near it, in steps.
    pub fn home(&mut self) {
        let start = self.trail.first().copied().unwrap_or(self.here);
        let to = (start.0 + self.random.real(-20.0, 20.0), start.1 + self.random.real(-20.0, 20.0));
        let fixes = self.random.pick(&[1, 1, 5, 12, 20]);
        let step = (distance(self.here, to) / fixes as f64).max(3.0);
        self.walk(&[self.here, to], step, 0.0, 0.0, fixes);
    }

    pub fn replayed(&mut self) {
        self.replays = true;
        match self.random.below(3) {
            0 => self.straight(),
            1 => self.zigzag(),
            _ => self.back(),
        }
        self.replays = false;
        if self.random.once_in(2) {
            self.call(Call::EndReplay);
        }
    }

    /// Following, a few fixes or many from before a restart, and on.
    pub fn replay_followed(&mut self) {
        self.set_following(true);
        let path = self.way_back();
        self.walk(&path, 25.0, 0.0, 0.0, 2);
        self.replays = true;
        let fixes = self.random.pick(&[1, 2, 4, 30]);
        self.sway(20.0, 30.0, fixes);
        self.replays = false;
        self.walk(&path, 25.0, 0.0, 0.0, 4);
    }
}
