//! Courses, and riding along them.
use super::ground::{Spot, along, anywhere, distance, turned};
use super::rider::Rider;
use crate::script::Call;

impl Rider {
    pub fn along_course(&mut self) {
        if self.course.len() < 2 {
            return;
        }
        let from = self.random.below(self.course.len() - 1);
        let mut path = self.course[from..].to_vec();
        if self.random.once_in(4) {
            path = self.course[..=from + 1].to_vec();
            path.reverse();
        }
        let step = self.random.pick(&[6.0, 12.0, 16.0, 25.0, 39.0, 45.0]);
        let (aside, fixes) = (self.beside(), self.random.between(4, 60));
        self.walk(&path, step, aside, 0.0, fixes);
    }

    /// A course out and back beside itself, followed.
    pub fn twice(&mut self) {
        if self.room < 8 {
            return;
        }
        let legs = self.random.between(1, (self.room / 2 - 1).min(12));
        let mut course = self.path_from(self.here, legs);
        let aside = self.random.pick(&[0.0, 3.0, 8.0, 15.0, 30.0]);
        let back: Vec<Spot> =
            course.iter().rev().map(|spot| (spot.0 + aside, spot.1 - aside)).collect();
        course.extend(back);
        self.set_course(course);
        self.set_following(true);
        self.weave();
    }

    /// Along the course unsteadily: on, back, hops, jitter, lost fixes.
    pub fn weave(&mut self) {
        const STEPS: [f64; 12] =
            [5.0, 16.0, 16.0, 30.0, 30.0, 38.0, 40.5, 41.5, 95.0, 105.0, 490.0, 505.0];
        let course = self.course.clone();
        let length: f64 = course.windows(2).map(|pair| distance(pair[0], pair[1])).sum();
        let mut at = self.random.pick(&[0.0, 0.0, 0.3, 0.8]) * length;
        let jitter = self.random.pick(&[0.0, 3.0, 12.0, 24.0]);
        for _ in 0..self.random.between(4, 40) {
            let step = self.random.pick(&STEPS);
            at += if self.random.once_in(4) { -step / 2.0 } else { step };
            let Some((east, north)) = along(&course, at) else {
                return;
            };
            let (aside, on) =
                (self.random.real(-jitter, jitter), self.random.real(-jitter, jitter));
            self.go((east + aside, north + on));
            if self.random.once_in(12) {
                self.wait(6_000);
                self.missing();
            }
        }
    }

    /// Legs from a spot, about the way the rider goes.
    fn path_from(&mut self, from: Spot, legs: usize) -> Vec<Spot> {
        let (mut path, mut way) = (vec![from], self.way);
        let longest = self.random.pick(&[30.0, 100.0, 400.0, 1_500.0]);
        for _ in 0..legs {
            way = turned(way, self.random.real(-0.45, 0.45));
            let (length, at) = (self.random.real(10.0, longest), path[path.len() - 1]);
            path.push((at.0 + length * way.0, at.1 + length * way.1));
        }
        path
    }

    pub fn load_course(&mut self) {
        if self.random.once_in(12) {
            let points = self.random.between(0, self.room.min(400));
            let places = (0..points).map(|_| anywhere(&mut self.random)).collect();
            self.call(Call::SetCourse(places));
        } else {
            let mut course = self.some_course();
            course.drain(..course.len().saturating_sub(self.room));
            self.set_course(course);
        }
        if self.random.once_in(4) {
            self.set_following(true);
        }
    }

    fn some_course(&mut self) -> Vec<Spot> {
        let legs = match self.random.once_in(30) {
            true => self.random.between(290, 400),
            false => self.random.between(1, 24),
        };
        match self.random.below(10) {
            0 => self.trail.clone(),
            1 => self.way_back(),
            2 | 3 => self.path_from(self.here, legs),
            4 => {
                let mut path = self.path_from(self.here, legs);
                path.extend(path.clone().iter().rev());
                path
            }
            5 => {
                let mut path = self.path_from(self.here, legs);
                path.push(path[0]);
                path
            }
            6 => {
                let far = self.random.pick(&[20.0, 490.0, 510.0, 3_000.0]);
                self.path_from(self.ahead(0.0, far), legs)
            }
            7 => self.path_from(self.here, legs).iter().flat_map(|&spot| [spot, spot]).collect(),
            8 => vec![self.here],
            _ => Vec::new(),
        }
    }
}
