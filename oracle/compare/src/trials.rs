//! The rides that are measured: a guide made by some calls, and the fixes behind them. Both sides keep
//! the guide as it is behind those calls, and perform the fixes from there again and again.
use crate::guide::Guide;
use crate::homing;
use crate::script::{Call, Script};
use crate::transcript::Answer;
use crate::{Place, door, grouped};
use cittumay::{NUMBERS, WORDS};
use std::f64::consts::TAU;
use vana::ride::homing::{Crumb, Homing, probe};

/// Fixes of a trial.
pub const FIXES: usize = 64;
pub const CAPACITY: usize = 4_096;
/// 1e-7 degree of latitude in a metre, and of longitude at the equator.
const PER_METRE: f64 = 89.831_528;
/// From one fix along a winding road or a course to the next.
const STEP: f64 = 10.0;

pub struct Trial {
    /// A word.
    pub name: String,
    /// What a reader is told.
    pub title: String,
    /// The calls that make the guide.
    pub script: Script,
    /// What is measured.
    pub fixes: Vec<Call>,
    /// The crumbs held before the fixes, where the title tells them.
    pub held: Option<usize>,
}

/// How many crumbs are held, and how many points a course has, where the growth of the cost is measured.
pub const HELD: [usize; 3] = [60, 600, 4_000];
pub const POINTS: [usize; 3] = [2, 200, 2_048];

/// The trials whose time is taken.
pub fn timed() -> Vec<Trial> {
    let mut trials = Vec::new();
    trials.extend(HELD.map(recording));
    trials.extend(HELD.map(homing));
    trials.extend(POINTS.map(|points| following(points, 0)));
    trials.push(following(2_048, 120));
    trials.extend(POINTS.map(|points| near(points, false)));
    trials.push(near(2_048, true));
    trials
}

fn place(east: f64, north: f64) -> Place {
    ((north * PER_METRE).round() as i32, (east * PER_METRE).round() as i32)
}

fn observe(place: Place, second: usize) -> Call {
    Call::Observe(Some(place), 1_000 * second as u64)
}

// ---- a breadcrumb

/// A road that bends every 36 m, so that every fix at a bend is kept.
fn zigzag(bend: f64) -> Place {
    place(20.0 * bend, 30.0 * (1.0 - (1.0 - bend % 2.0).abs()))
}

fn ridden_out(held: usize) -> Script {
    let fix = |bend| observe(zigzag(bend as f64), bend);
    // The newest fix waits to be kept.
    Script { capacity: CAPACITY, room: 0, calls: (0..=held).map(fix).collect() }
}

/// Each fix keeps one more crumb.
pub fn recording(held: usize) -> Trial {
    let fix = |k| observe(zigzag(k as f64), k);
    Trial {
        name: format!("recording-{held}"),
        title: format!("recording, {} crumbs held", grouped(held)),
        script: ridden_out(held),
        fixes: (held + 1..=held + FIXES).map(fix).collect(),
        held: Some(held),
    }
}

/// The breadcrumb is followed home, 18 m a fix.
pub fn homing(held: usize) -> Trial {
    let newest = held - 1;
    let mut script = ridden_out(newest);
    script.calls.push(Call::SetFollowing(true, 1_000 * newest as u64));
    let fix = |k| observe(zigzag(newest as f64 - k as f64 / 2.0), newest + k);
    script.calls.extend((1..10).map(fix));
    Trial {
        name: format!("homing-{held}"),
        title: format!("{} crumbs followed home, on them", grouped(held)),
        script,
        fixes: (10..10 + FIXES).map(fix).collect(),
        held: Some(held),
    }
}

/// The breadcrumb is followed home, and then left for good.
pub fn leaving(held: usize) -> Trial {
    let Trial { script, .. } = homing(held);
    let fix = |k| observe(place(20.0 * held as f64, 100.0 * k as f64), held + 10 + k);
    Trial {
        name: format!("leaving-{held}"),
        title: format!("{} crumbs followed home and left", grouped(held)),
        script,
        fixes: (0..FIXES).map(fix).collect(),
        held: Some(held),
    }
}

/// A road that winds, by its east.
fn winding(east: f64) -> f64 {
    200.0 * (east * TAU / 2_000.0).sin()
}

fn along_road(step: usize, second: usize) -> Call {
    let east = STEP * step as f64;
    observe(place(east, winding(east)), second)
}

/// The rider turns round and rides back over the breadcrumb, which is then followed.
pub fn turning_round() -> Trial {
    let out = 300;
    let calls = (0..=out).map(|k| along_road(k, k)).collect();
    Trial {
        name: "turning-round".to_owned(),
        title: "turning round on a road of 3 km".to_owned(),
        script: Script { capacity: CAPACITY, room: 0, calls },
        fixes: (1..=FIXES).map(|k| along_road(out - k, out + k)).collect(),
        held: None,
    }
}

/// A small buffer is thinned again and again.
pub fn thinning() -> Trial {
    let (capacity, out) = (16, 2_000);
    let calls = (0..out).map(|k| along_road(k, k)).collect();
    Trial {
        name: "thinning".to_owned(),
        title: "recording on a road of 20 km, in a buffer of 16 crumbs".to_owned(),
        script: Script { capacity, room: 0, calls },
        fixes: (out..out + FIXES).map(|k| along_road(k, k)).collect(),
        held: None,
    }
}

// ---- a course

/// A course that winds, a point every 20 m; of two points, a straight one of the length of 200.
#[derive(Clone, Copy)]
struct Course {
    points: usize,
}

impl Course {
    fn spacing(self) -> f64 {
        if self.points == 2 { 199.0 * 20.0 } else { 20.0 }
    }

    /// By its east.
    fn length(self) -> f64 {
        (self.points - 1) as f64 * self.spacing()
    }

    /// So far along by its east, and so far beside it.
    fn at(self, east: f64, off: f64) -> Place {
        let north = if self.points == 2 { 0.0 } else { winding(east) };
        place(east, north + off)
    }

    /// A guide with the course placed.
    fn placed(self) -> Script {
        let point = |k| self.at(k as f64 * self.spacing(), 0.0);
        let course = (0..self.points).map(point).collect();
        let calls = vec![observe(self.at(0.0, 0.0), 0), Call::SetCourse(course)];
        Script { capacity: CAPACITY, room: self.points, calls }
    }
}

/// The course is placed, and nothing more is ridden.
pub fn placed(points: usize) -> Script {
    Course { points }.placed()
}

/// The same guide without the course.
pub fn unplaced(points: usize) -> Script {
    let mut script = placed(points);
    script.calls.retain(|call| !matches!(call, Call::SetCourse(_)));
    script
}

/// Along the first half of the course, at most 10 km, and towards the end `off` metres beside it.
pub fn following(points: usize, off: usize) -> Trial {
    let course = Course { points };
    let mut script = course.placed();
    script.calls.push(Call::SetFollowing(true, 0));
    let from = ((course.length() / STEP / 2.0) as usize).min(1_000);
    let beside = |k: usize| if k + 100 < from { 0.0 } else { off as f64 };
    let fix = |k| observe(course.at(k as f64 * STEP, beside(k)), k);
    script.calls.extend((1..from).map(fix));
    let (name, place) = match off {
        0 => (format!("course-{points}"), "on it".to_owned()),
        _ => (format!("off-course-{points}"), format!("{off} m off it")),
    };
    Trial {
        name,
        title: format!("a course of {} points followed, {place}", grouped(points)),
        script,
        fixes: (from..from + FIXES).map(fix).collect(),
        held: None,
    }
}

/// On the course to its end and on, from where it lies half as many fixes ahead.
pub fn ending(points: usize) -> Trial {
    let course = Course { points };
    let mut script = course.placed();
    let from = (course.length() / STEP) as usize - FIXES / 2;
    let fix = |k| observe(course.at(k as f64 * STEP, 0.0), k);
    script.calls.push(fix(from - 1));
    script.calls.push(Call::SetFollowing(true, 1_000 * from as u64));
    Trial {
        name: format!("ending-{points}"),
        title: format!("a course of {} points followed to its end", grouped(points)),
        script,
        fixes: (from..from + FIXES).map(fix).collect(),
        held: None,
    }
}

/// 10 m beside the course and against its way, which joins nothing.
pub fn near(points: usize, joining: bool) -> Trial {
    let course = Course { points };
    let mut script = course.placed();
    script.calls.push(Call::SetAutoFollow(joining));
    let first = course.length().min(20_000.0);
    let from = ((first / STEP / 4.0) as usize).min(500);
    let fix = |k| observe(course.at(first - k as f64 * STEP, 10.0), k);
    script.calls.extend((1..from).map(fix));
    let (name, looked) = if joining { ("joining", "") } else { ("near", "not ") };
    let points = grouped(points);
    Trial {
        name: format!("{name}-{}", course.points),
        title: format!(
            "a course of {points} points near and not followed, joining {looked}looked for"
        ),
        script,
        fixes: (from..from + FIXES).map(fix).collect(),
        held: None,
    }
}

// ---- both sides

/// A guide kept as a script leaves it.
pub trait Kept {
    type Guide<'a>: Guide
    where
        Self: 'a;

    /// A guide as it was kept.
    fn again(&mut self) -> Self::Guide<'_>;
}

pub struct Proved {
    state: ([u64; WORDS], [f32; NUMBERS]),
    kept: door::Lent,
    lent: door::Lent,
}

impl Proved {
    pub fn ridden(script: &Script) -> Self {
        let mut kept = door::Lent::to(script);
        let mut guide = kept.guide();
        perform(&mut guide, script);
        let state = guide.stored();
        Self { state, kept, lent: door::Lent::to(script) }
    }
}

impl Kept for Proved {
    type Guide<'a> = cittumay::Homing<'a>;

    fn again(&mut self) -> Self::Guide<'_> {
        self.lent.copy_from(&self.kept);
        self.lent.resumed(self.state)
    }
}

pub struct Rust {
    kept: Homing<'static>,
    lent: homing::Lent<Crumb>,
}

impl Rust {
    /// The buffers of the guide that is kept are never given back.
    pub fn ridden(script: &Script) -> Self {
        let homing::Lent { crumbs, line } = homing::Lent::to(script);
        let mut kept = Homing::new(crumbs.leak()).with_line(line.leak());
        perform(&mut kept, script);
        Self { kept, lent: homing::Lent::to(script) }
    }
}

impl Kept for Rust {
    type Guide<'a> = Homing<'a>;

    fn again(&mut self) -> Self::Guide<'_> {
        probe::again(&self.kept, &mut self.lent.crumbs, &mut self.lent.line)
    }
}

fn perform(guide: &mut impl Guide, script: &Script) {
    for call in &script.calls {
        let answer = guide.perform(call);
        assert!(!matches!(answer, Answer::Refused(_)), "a guide's own calls are taken");
    }
}
