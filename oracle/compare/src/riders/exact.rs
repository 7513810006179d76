//! Rides on the limits: distances and angles that are exactly 5, 15, 20, 25, 30, 40, 50, 80, 300 or
//! 500 m, or an eighth of a turn; equal distances from two stretches.
use super::ground::{Base, M_PER_E7, Spot};
use super::rider::Rider;
use crate::random::Random;
use crate::script::{Call, Script};

/// A latitude where 1e-7 degree of longitude is the f32 0.01 m, so that 100 of them are 1 m.
const LAT: i64 = 259_311_200;

pub fn script(mut random: Random) -> Script {
    let (capacity, room) = (random.pick(&[8, 9, 12, 16, 32]), random.pick(&[4, 8, 16]));
    let (calls, kind) = (random.between(40, 200), random.below(5));
    let lat = if kind == 4 { 0 } else { LAT };
    let lon = random.pick(&[0, 100_000_000, 1_799_990_000, -1_800_000_000]);
    let mut rider = Rider::from(random, room, Base::at(lat, lon));
    rider.tell();
    while rider.calls.len() < calls {
        match kind {
            0 | 1 => rider.beside_a_line(),
            2 | 3 => rider.on_a_line(),
            _ => rider.across_a_line(),
        }
        rider.between_rides();
    }
    Script { capacity, room, calls: rider.calls }
}

impl Rider {
    fn between_rides(&mut self) {
        match self.random.below(24) {
            0 => self.press(),
            1 => self.stand(),
            2 => self.lose(),
            3 => self.clock(),
            4 => self.restart(),
            5 => self.ask(),
            _ => {}
        }
    }

    /// North and back on a meridian, and then on one so many metres east.
    fn beside_a_line(&mut self) {
        const BESIDE: [f64; 15] = [
            0.0, 0.0, 19.0, 20.0, 20.0, 24.0, 25.0, 25.0, 26.0, 49.0, 50.0, 50.0, 51.0, 500.0,
            501.0,
        ];
        if self.random.once_in(6) {
            return self.turn_beside();
        }
        let (step, north) = (self.random.pick(&[16.0, 20.0, 30.0]), self.here.1);
        let fixes = self.random.between(12, 20);
        if self.random.once_in(3) {
            self.line_north(north, north + 40.0 * fixes as f64);
        }
        if self.random.once_in(2) {
            let back = -step;
            self.steps((0.0, step), fixes);
            self.press_on();
            self.beside_it(&BESIDE, back, fixes);
        } else {
            self.press_on();
            self.beside_it(&BESIDE, step, fixes);
        }
    }

    /// North, with a stretch ridden three times.
    fn out_north(&mut self) {
        self.set_out();
        self.steps((0.0, 20.0), 15);
        self.go((0.0, 280.0));
        self.steps((0.0, 20.0), 21);
    }

    /// Back south so many metres east of where the ride began.
    fn turn_beside(&mut self) {
        self.out_north();
        let east = self.random.pick(&[0.0, 19.0, 20.0, 20.0, 21.0]);
        self.go((east, 250.0));
        self.steps((0.0, -20.0), 12);
    }

    /// A course on the meridian.
    fn line_north(&mut self, from: f64, to: f64) {
        let middle = (from + to) / 2.0;
        self.set_course(vec![(0.0, from), (0.0, middle), (0.0, to)]);
    }

    fn press_on(&mut self) {
        if self.random.once_in(2) {
            self.set_following(true);
        }
    }

    fn steps(&mut self, (east, north): Spot, fixes: usize) {
        for _ in 0..fixes {
            self.go((self.here.0 + east, self.here.1 + north));
        }
    }

    /// So many fixes north, each a while as far east.
    fn beside_it(&mut self, beside: &[f64], north: f64, fixes: usize) {
        let mut east = self.random.pick(beside);
        for _ in 0..fixes {
            if self.random.once_in(4) {
                east = self.random.pick(beside);
            }
            self.go((east, self.here.1 + north));
        }
        if self.random.once_in(2) {
            self.go((0.0, self.here.1));
        }
    }

    /// To and fro on a parallel, in whole metres.
    fn on_a_line(&mut self) {
        const STEPS: [f64; 14] =
            [5.0, 5.0, 10.0, 15.0, 15.0, 20.0, 25.0, 30.0, 35.0, 40.0, 40.0, 50.0, 100.0, 300.0];
        let sign = self.random.pick(&[-1.0, 1.0]);
        match self.random.below(12) {
            0 | 1 => self.line_east(sign),
            2 | 3 => self.press_on(),
            4 => self.set_following(false),
            5 => {
                let fixes = self.random.between(4, 16);
                let step = self.random.pick(&[10.0, 15.0, 16.0, 20.0]);
                self.steps((sign * step, 0.0), fixes);
            }
            6 => {
                let east = self.random.pick(&[5.0, 25.0, 30.0, 50.0, 80.0, 81.0, 100.0, 500.0]);
                self.go((sign * east, 0.0));
            }
            7 => self.past_the_course(),
            8 if self.random.once_in(3) => self.out_and_back(sign),
            9 if self.random.once_in(4) => self.turn_after_300(),
            10 if self.random.once_in(4) => self.home_after_300(),
            _ => {
                let step = self.random.pick(&STEPS);
                self.go((self.here.0 + sign * step, 0.0));
            }
        }
    }

    /// So many metres before or behind the course's end.
    fn past_the_course(&mut self) {
        let Some(&(end, _)) = self.course.last() else {
            return;
        };
        let far = self.random.pick(&[-40.0, -30.0, -30.0, -29.0, 0.0, 25.0, 30.0, 500.0, 500.0]);
        let sign = self.random.pick(&[-1.0, 1.0]);
        self.go((end + sign * far, 0.0));
    }

    /// A course on the parallel, perhaps back over itself.
    fn line_east(&mut self, sign: f64) {
        let leg = sign * self.random.pick(&[20.0, 40.0, 100.0, 150.0]);
        let from = self.here.0;
        let out: Vec<Spot> = (0..4).map(|k| (from + leg * f64::from(k), 0.0)).collect();
        let back = [(from + 2.0 * leg, 0.0), (from, 0.0)];
        let twice = self.room >= 6 && self.random.once_in(2);
        self.set_course(if twice { [&out[..], &back[..]].concat() } else { out });
    }

    /// Out on a course that comes back over itself, and back about as far as makes a gap.
    fn out_and_back(&mut self, sign: f64) {
        let from = self.here.0;
        self.set_course(vec![(from, 0.0), (from + sign * 100.0, 0.0), (from, 0.0)]);
        self.set_following(true);
        self.steps((sign * 20.0, 0.0), 5);
        let back = self.random.pick(&[39.0, 40.0, 40.0, 41.0]);
        self.go((self.here.0 - sign * back, 0.0));
    }

    /// Another ride, from its start.
    fn set_out(&mut self) {
        self.restart();
        self.here = (0.0, 0.0);
        self.tell();
        self.wait(1_000);
    }

    /// Near the start again, the newest crumb about 300 m along.
    fn home_after_300(&mut self) {
        self.set_out();
        self.steps((20.0, 0.0), 7);
        let end = self.random.pick(&[159.0, 160.0, 160.0, 161.0]);
        for east in [end, 100.0, 20.0, 28.0] {
            self.go((east, 0.0));
        }
    }

    /// East with a stretch ridden three times, and back to a crumb about 300 m before the newest.
    fn turn_after_300(&mut self) {
        self.set_out();
        self.steps((20.0, 0.0), 5);
        self.go((60.0, 0.0));
        self.steps((20.0, 0.0), 12);
        let end = self.random.pick(&[319.0, 320.0, 320.0, 321.0]);
        self.go((end, 0.0));
        self.steps((-12.0, 0.0), 27);
    }

    /// North along the course or the breadcrumb, then over it at exactly an eighth of a turn.
    fn across_a_line(&mut self) {
        let step = 200.0 * M_PER_E7;
        let (east, north) = self.here;
        let back = self.random.once_in(2);
        if back {
            self.out_north();
            self.go((-8.0 * step, 250.0));
        } else {
            self.call(Call::SetAutoFollow(true));
            let places = [(east, north - 99.0 * step), (east, north + 999.0 * step)];
            self.set_course(places.to_vec());
            self.steps((-9.0 * step, 0.0), 1);
        }
        let on = if back { -step } else { step };
        let fixes = self.random.between(12, 16);
        self.steps((step, on), fixes);
        if self.random.once_in(2) {
            self.steps((0.0, 5.0 * on), 8);
        }
    }
}
