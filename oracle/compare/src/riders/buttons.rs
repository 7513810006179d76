//! Buttons, clocks, lost fixes, and calls that make little sense.
use super::ground::{LAT_MAX, LON_MAX, anywhere};
use super::rider::Rider;
use crate::Place;
use crate::script::{Call, Question};

impl Rider {
    pub fn press(&mut self) {
        let call = match self.random.below(8) {
            0..3 => Call::SetFollowing(true, self.now_ms),
            3..5 => Call::SetFollowing(false, self.now_ms),
            5 => Call::SetAutoFollow(false),
            _ => Call::SetAutoFollow(true),
        };
        self.call(call);
    }

    pub fn lose(&mut self) {
        for _ in 0..self.random.between(1, 3) {
            let ms = self.random.pick(&[500, 4_000, 5_000, 5_001, 6_000, 20_000]);
            self.wait(ms);
            self.missing();
        }
    }

    pub fn stand(&mut self) {
        for _ in 0..self.random.between(1, 6) {
            let ms = self.random.pick(&[0, 400, 999, 1_000, 1_001, 5_000, 15_000, 15_001, 60_000]);
            self.wait(ms);
            self.tell();
        }
    }

    /// The clock goes back, or jumps.
    pub fn clock(&mut self) {
        let ms = self.random.below(90_000) as u64;
        self.now_ms = match self.random.below(8) {
            0..3 => self.now_ms.saturating_sub(ms),
            3..6 => self.now_ms.saturating_add(ms),
            6 => self.random.pick(&[0, 1, 1 << 32, 1 << 63, u64::MAX]),
            _ => self.now_ms.saturating_add(3_600_001),
        };
    }

    pub fn restart(&mut self) {
        self.call(Call::Reset);
        if self.random.once_in(2) {
            self.trail.clear();
        }
    }

    /// Out and nearly back, and no way back: the last point is kept all the same.
    pub fn barely_out(&mut self) {
        self.restart();
        self.tell();
        self.wait(1_000);
        let out = self.random.real(6.0, 9.0);
        self.go(self.ahead(out, 0.0));
        self.go(self.ahead(-5.5, 0.0));
        self.set_following(true);
    }

    /// A call that a question refuses.
    pub fn refused(&mut self) {
        let place = self.bad_place();
        let call = match self.random.below(5) {
            0 => Call::Replay(place, self.now_ms),
            1 => self.bad_course(place),
            2 => Call::SetCourse(vec![place; self.room + 1]),
            _ => Call::Observe(Some(place), self.now_ms),
        };
        if !matches!(&call, Call::SetCourse(places) if places.len() > 2_048) {
            self.call(call);
        }
    }

    fn bad_place(&mut self) -> Place {
        let (lat, lon) = anywhere(&mut self.random);
        let sign = self.random.pick(&[-1, 1]);
        let beyond = self.random.pick(&[1, 1, 1_000, 340_000_000]);
        let (far_lat, far_lon) = (sign * (LAT_MAX + beyond), sign * (LON_MAX + beyond));
        match self.random.below(3) {
            0 => (far_lat as i32, lon),
            1 => (lat, far_lon as i32),
            _ => (far_lat as i32, far_lon as i32),
        }
    }

    /// Good places, and a bad one among them.
    fn bad_course(&mut self, place: Place) -> Call {
        let mut places: Vec<_> =
            (0..self.random.below(5)).map(|_| anywhere(&mut self.random)).collect();
        places.insert(self.random.below(places.len() + 1), place);
        Call::SetCourse(places)
    }

    pub fn ask(&mut self) {
        for _ in 0..self.random.between(1, 3) {
            let question = Call::Ask(self.random.pick(&Question::ALL));
            let dumps = self.random.once_in(5);
            self.call(if dumps { Call::Dump } else { question });
        }
    }

    /// Any call, mostly near.
    pub fn anything(&mut self) {
        match self.random.below(18) {
            0 => self.press(),
            1 => self.clock(),
            2 => self.lose(),
            3 => self.stand(),
            4 => self.hop(),
            5 => self.corner(),
            6 => self.refused(),
            7 => self.call(Call::EndReplay),
            8 => self.few_points(),
            9 if self.random.once_in(6) => self.restart(),
            10 => self.replays = !self.replays,
            11 => self.spoil(),
            12 => self.thin(),
            13 => self.step(),
            14 => self.settle(),
            15 if self.random.once_in(3) => self.write_log(),
            16 => self.rebuild(),
            _ => {
                let (on, aside) = (self.random.real(-30.0, 90.0), self.random.real(-40.0, 40.0));
                self.go(self.ahead(on, aside));
            }
        }
    }

    /// A course of 0, 1, 2 or a few points, near or anywhere.
    pub fn few_points(&mut self) {
        let points = self.random.below(4).min(self.room);
        let far = self.random.once_in(4);
        let places = (0..points).map(|k| match far {
            true => anywhere(&mut self.random),
            false => self.base.place(self.ahead(60.0 * k as f64, 5.0)),
        });
        let places = places.collect();
        self.call(Call::SetCourse(places));
    }
}
