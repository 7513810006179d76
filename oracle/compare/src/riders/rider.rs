//! A rider whose doings are written down as calls.
use super::ground::{Base, Spot, beyond, distance, turned, way};
use super::logs::Log;
use crate::random::Random;
use crate::script::Call;

/// Spots remembered for riding back.
const TRAIL: usize = 300;

pub struct Rider {
    pub random: Random,
    pub calls: Vec<Call>,
    /// Places that the lent line has room for.
    pub room: usize,
    pub base: Base,
    pub here: Spot,
    /// Of length 1.
    pub way: Spot,
    pub now_ms: u64,
    pub trail: Vec<Spot>,
    pub course: Vec<Spot>,
    /// Fixes go to `replay`.
    pub replays: bool,
    pub log: Log,
}

impl Rider {
    pub fn new(mut random: Random, room: usize) -> Self {
        let base = Base::any(&mut random);
        Self::from(random, room, base)
    }

    pub fn from(mut random: Random, room: usize, base: Base) -> Self {
        let tangent = random.real(-9.0, 9.0);
        Self {
            now_ms: random.pick(&[0, 1_000, 86_400_000, 1 << 40]),
            random,
            calls: Vec::new(),
            room,
            base,
            here: (0.0, 0.0),
            way: turned((0.0, 1.0), tangent),
            trail: Vec::new(),
            course: Vec::new(),
            replays: false,
            log: Log::default(),
        }
    }

    pub fn call(&mut self, call: Call) {
        self.calls.push(call);
    }

    /// A fix where the rider is.
    pub fn tell(&mut self) {
        let place = self.base.place(self.here);
        self.call(match self.replays {
            true => Call::Replay(place, self.now_ms),
            false => Call::Observe(Some(place), self.now_ms),
        });
    }

    pub fn wait(&mut self, ms: u64) {
        self.now_ms = self.now_ms.saturating_add(ms);
    }

    /// There, a fix, and a second.
    pub fn go(&mut self, to: Spot) {
        self.way = way(self.here, to).unwrap_or(self.way);
        self.here = to;
        self.trail.push(to);
        if self.trail.len() > TRAIL {
            self.trail.remove(0);
        }
        self.tell();
        self.wait(1_000);
    }

    pub fn ahead(&self, on: f64, aside: f64) -> Spot {
        beyond(self.here, self.way, on, aside)
    }

    /// As many fixes this way, from side to side.
    pub fn sway(&mut self, step: f64, swing: f64, fixes: usize) {
        let way = self.way;
        for k in 0..fixes {
            self.way = way;
            self.go(self.ahead(step, if k % 2 == 0 { swing } else { -swing }));
        }
        self.way = way;
    }

    /// Along `path` at `step`, this far to its right and from side to side.
    pub fn walk(&mut self, path: &[Spot], step: f64, aside: f64, swing: f64, fixes: usize) {
        let (mut left, mut told) = (step, 0);
        for pair in path.windows(2) {
            let Some(way) = way(pair[0], pair[1]) else {
                continue;
            };
            let length = distance(pair[0], pair[1]);
            let mut at = left;
            while at <= length {
                if told == fixes {
                    return;
                }
                let side = aside + if told % 2 == 0 { swing } else { -swing };
                self.go(beyond(pair[0], way, at, side));
                told += 1;
                at += step;
            }
            left = at - length;
        }
    }

    /// Where the rider was, latest first.
    pub fn way_back(&self) -> Vec<Spot> {
        self.trail.iter().rev().copied().collect()
    }

    pub fn set_following(&mut self, on: bool) {
        self.call(Call::SetFollowing(on, self.now_ms));
    }

    pub fn missing(&mut self) {
        self.call(Call::Observe(None, self.now_ms));
    }

    pub fn set_course(&mut self, course: Vec<Spot>) {
        let places = course.iter().map(|&spot| self.base.place(spot)).collect();
        self.call(Call::SetCourse(places));
        self.course = course;
    }
}
