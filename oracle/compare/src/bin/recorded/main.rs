//! Writes the stored input of the proved program `recorded`: some rides as one script, with the Rust's answers. Fails
//! where the script leaves the domain of comparison, or where a class of calls is not met.
mod refused;
mod restarts;

use compare::Place;
use compare::coverage::Coverage;
use compare::driver::drive;
use compare::options::{Words, print, program, unknown};
use compare::recording::Recording;
use compare::script::{Call, Script};
use std::process::ExitCode;

/// Metres east and north of where a ride begins.
type Spot = (i64, i64);

/// 1e-7 degrees of latitude in 100 m.
const NORTH_E7: i64 = 8_993;

struct Rider {
    calls: Vec<Call>,
    base: Place,
    /// 1e-7 degrees of longitude in 100 m.
    east_e7: i64,
    at: Spot,
    now_ms: u64,
    /// Fixes go to `replay`.
    replays: bool,
}

const USAGE: &str = "\
usage: recorded [--script]
Writes the stored ride with the Rust's answers, which the proved program `recorded` is run on.
  --script   prints its script instead
";

fn main() -> ExitCode {
    program(USAGE, read, |is_script| {
        let script = Script { capacity: 16, room: 24, calls: rides() };
        let recording = recorded(&script)?;
        if is_script { print(script.to_string()) } else { print(recording.bytes()) }?;
        Ok(true)
    })
}

/// Whether the script is wanted.
fn read(words: &mut Words) -> Result<bool, String> {
    match words.next().as_deref() {
        None => Ok(false),
        Some("--script") => Ok(true),
        Some(word) => unknown(word),
    }
}

fn recorded(script: &Script) -> Result<Recording, String> {
    let (mut coverage, mut recording) = (Coverage::default(), Recording::of(script));
    drive(script, false, &mut coverage, &mut recording)?;
    let unmet = coverage.unmet();
    if unmet.is_empty() { Ok(recording) } else { Err(format!("no call met: {}", unmet.join("; "))) }
}

fn rides() -> Vec<Call> {
    let mut rider = Rider {
        calls: Vec::new(),
        base: (594_370_000, 247_450_000),
        east_e7: 17_686,
        at: (0, 0),
        now_ms: 10_000,
        replays: false,
    };
    rider.sets_out();
    rider.weaves_out();
    rider.turns_round();
    rider.strays();
    rider.is_dropped();
    rider.weaves_back();
    rider.rides_home();
    rider.rides_a_loop();
    rider.climbs();
    rider.crosses_the_antimeridian();
    rider.joins_a_course();
    rider.rides_the_spur();
    rider.ends_the_course();
    rider.leaves_the_course();
    rider.leaps();
    rider.stands_on_the_pole();
    rider.replays_while_following();
    rider.is_refused();
    rider.thins_by_every_count();
    rider.builds_again();
    rider.builds_again_while_following();
    rider.settles();
    rider.thins_alone();
    rider.brings_bad_files();
    rider.brings_bad_buffers();
    rider.calls
}

/// A spur out and nearly back the same way, and a round whose first stretch is its last as well.
const COURSE: [Spot; 9] = [
    (480, -160),
    (600, -160),
    (500, 0),
    (900, 0),
    (760, 6),
    (760, 240),
    (480, 240),
    (480, -160),
    (600, -160),
];

impl Rider {
    fn call(&mut self, call: Call) {
        self.calls.push(call);
    }

    fn place(&self, (east, north): Spot) -> Place {
        let lat = i64::from(self.base.0) + north * NORTH_E7 / 100;
        let lon = i64::from(self.base.1) + east * self.east_e7 / 100;
        let lon = if lon > 1_800_000_000 { lon - 3_600_000_000 } else { lon };
        (lat as i32, lon as i32)
    }

    fn fix(&mut self) {
        self.fix_at(self.place(self.at));
    }

    fn fix_at(&mut self, place: Place) {
        self.call(match self.replays {
            true => Call::Replay(place, self.now_ms),
            false => Call::Observe(Some(place), self.now_ms),
        });
    }

    fn missing(&mut self) {
        self.call(Call::Observe(None, self.now_ms));
    }

    fn wait(&mut self, ms: u64) {
        self.now_ms += ms;
    }

    /// Straight to a spot, with a fix at least every `step` metres east or north, 125 ms a metre.
    fn ride(&mut self, to: Spot, step: i64) {
        let from = self.at;
        let (east, north) = (to.0 - from.0, to.1 - from.1);
        let steps = (east.abs().max(north.abs()) + step - 1) / step;
        for k in 1..=steps {
            self.at = (from.0 + east * k / steps, from.1 + north * k / steps);
            self.wait(125 * step as u64);
            self.fix();
        }
    }

    /// On in so many legs, every other one ending aside.
    fn weave(&mut self, legs: i64, leg: Spot, aside: Spot, step: i64) {
        let from = self.at;
        for k in 1..=legs {
            let (east, north) = (k * leg.0 + k % 2 * aside.0, k * leg.1 + k % 2 * aside.1);
            self.ride((from.0 + east, from.1 + north), step);
        }
    }

    fn set_following(&mut self, on: bool) {
        self.call(Call::SetFollowing(on, self.now_ms));
    }

    fn set_course(&mut self, spots: &[Spot]) {
        let places = spots.iter().map(|&spot| self.place(spot)).collect();
        self.call(Call::SetCourse(places));
    }

    /// Nothing to follow yet; a fix that repeats, one that is missing, a clock that goes back.
    fn sets_out(&mut self) {
        self.missing();
        self.set_course(&[(0, 0), (0, 500), (500, 500)]);
        self.fix();
        self.set_following(true);
        self.set_course(&[(0, 500)]);
        self.wait(999);
        self.fix();
        self.wait(1);
        self.fix();
        self.wait(2_000);
        self.missing();
        self.now_ms -= 6_000;
        self.ride((0, 20), 20);
    }

    /// Bends that fill the buffer. Following by hand keeps one more crumb, which thins them.
    fn weaves_out(&mut self) {
        self.weave(6, (0, 40), (10, 0), 20);
        self.weave(4, (40, 0), (0, 10), 20);
        self.weave(6, (0, 40), (10, 0), 20);
        self.call(Call::Dump);
        self.set_following(true);
        self.set_following(false);
        self.call(Call::Dump);
    }

    /// East, north until the window is full, bends, and back until the breadcrumb is followed.
    fn turns_round(&mut self) {
        let (east, north) = self.at;
        self.ride((east + 400, north), 40);
        self.ride((east + 400, north + 448), 8);
        self.weave(4, (0, 40), (14, 0), 20);
        self.weave(4, (0, -40), (14, 0), 20);
        self.ride((east + 400, north), 40);
        self.weave(10, (-20, 0), (0, 8), 20);
        self.call(Call::Dump);
    }

    /// Off the breadcrumb, standing until the reminder, without a fix for a while, and back on.
    fn strays(&mut self) {
        let (east, north) = self.at;
        self.ride((east, north + 80), 20);
        for ms in [15_000, 999, 1, 16_000, 16_000, 16_000] {
            self.wait(ms);
            self.fix();
        }
        self.wait(5_001);
        self.missing();
        self.wait(1_000);
        self.fix();
        self.ride((east - 20, north + 24), 20);
        self.ride((east - 60, north + 24), 20);
        self.ride((east - 80, north), 20);
    }

    /// Along the breadcrumb, back a little and on again, and then far from it.
    fn is_dropped(&mut self) {
        for spot in [(180, 500), (160, 420), (160, 500), (220, 500), (160, 500), (160, 420)] {
            self.ride(spot, 40);
        }
        self.ride((-575, 420), 50);
        self.call(Call::Dump);
    }

    /// Bends that one pass thins.
    fn weaves_back(&mut self) {
        self.ride((-560, 480), 20);
        self.ride((-440, 480), 20);
        self.weave(14, (40, 0), (0, 20), 20);
        self.call(Call::Dump);
    }

    /// Following by hand, stopped once on the way.
    fn rides_home(&mut self) {
        self.ride((160, 500), 40);
        self.set_following(true);
        self.ride((160, 380), 40);
        self.call(Call::SetAutoFollow(false));
        self.ride((160, 300), 40);
        self.call(Call::SetAutoFollow(true));
        self.set_following(true);
        self.ride((160, 260), 40);
        self.ride((0, 260), 40);
        self.ride((0, 0), 40);
        self.set_following(false);
        self.call(Call::Dump);
    }

    /// Arriving without following.
    fn rides_a_loop(&mut self) {
        for corner in [(150, 0), (150, 150), (0, 150), (0, 0)] {
            self.ride(corner, 30);
        }
        self.call(Call::Dump);
    }

    /// Hairpins, whose thinning takes some passes.
    fn climbs(&mut self) {
        self.weave(13, (0, 40), (150, 0), 50);
        self.set_course(&COURSE);
        self.call(Call::Dump);
    }

    /// Another ride, its first part read back from before a restart.
    fn crosses_the_antimeridian(&mut self) {
        self.call(Call::Reset);
        self.base = (-168_000_000, 1_799_990_000);
        self.east_e7 = 9_394;
        self.at = (0, 0);
        let now_ms = std::mem::replace(&mut self.now_ms, 0);
        self.replays = true;
        self.fix();
        self.weave(4, (40, 0), (0, 14), 20);
        self.replays = false;
        self.call(Call::EndReplay);
        self.now_ms = now_ms + 60_000;
        self.call(Call::Dump);
    }

    /// Along the course, away from it, and along it again long enough.
    fn joins_a_course(&mut self) {
        self.ride((480, 6), 40);
        self.set_course(&COURSE);
        self.ride((540, 6), 20);
        self.ride((560, 50), 20);
        self.ride((580, 6), 20);
        self.weave(6, (20, 0), (0, -12), 20);
        self.call(Call::Dump);
    }

    /// Along the spur, on the side of the way back, with a step back; turning before its end.
    fn rides_the_spur(&mut self) {
        self.ride((860, 6), 20);
        self.ride((880, -6), 20);
        self.ride((872, -6), 20);
        self.ride((880, 0), 20);
        self.ride((760, 6), 20);
        self.ride((760, 20), 20);
        self.ride((775, 5), 20);
        self.ride((752, 248), 40);
        self.call(Call::Dump);
    }

    /// Without a fix for 300 m; off the course, and back on; to its end.
    fn ends_the_course(&mut self) {
        self.ride((740, 240), 20);
        self.wait(5_500);
        self.missing();
        self.ride((480, 200), 300);
        self.ride((480, 100), 20);
        self.ride((400, 100), 20);
        self.wait(70_000);
        self.fix();
        self.ride((458, 60), 20);
        self.ride((480, 20), 20);
        self.ride((480, -160), 30);
        self.ride((580, -160), 20);
        self.call(Call::Dump);
    }

    /// Its way again, which is not joined any more. By hand: stopped; turning on the spur; without a
    /// fix beside it; set again; dropped.
    fn leaves_the_course(&mut self) {
        for spot in [(540, -100), (480, -60), (480, -160), (560, -160)] {
            self.ride(spot, 20);
        }
        self.set_following(true);
        self.set_following(false);
        self.ride((660, 0), 40);
        self.set_following(true);
        self.ride((790, 5), 20);
        self.ride((750, 5), 20);
        self.set_following(false);
        self.set_following(true);
        self.ride((800, 5), 20);
        self.wait(5_500);
        self.missing();
        self.ride((880, 5), 20);
        self.set_course(&COURSE);
        self.set_following(true);
        self.ride((1_480, 5), 50);
        self.call(Call::Dump);
    }

    /// Leaps between the equator and the north, whose thinning halves the line; half a turn away.
    fn leaps(&mut self) {
        self.call(Call::Reset);
        self.replays = true;
        for k in 0..18 {
            self.wait(1_000);
            self.fix_at((k % 2 * 899_000_000, -900_000_000 + k * 10_000));
        }
        for place in [(0, -500_000_000), (50_000_000, -400_000_000), (0, -300_000_000)] {
            self.wait(1_000);
            self.fix_at(place);
        }
        self.call(Call::Dump);
        self.fix_at((0, 900_000_000));
        self.replays = false;
        self.call(Call::EndReplay);
        self.fix_at((0, 900_000_001));
    }

    /// Where a degree of longitude has no length, and west of the start is -0 m east.
    fn stands_on_the_pole(&mut self) {
        self.call(Call::Reset);
        for place in [(900_000_000, 0), (899_990_000, 5), (899_980_000, -5)] {
            self.wait(1_000);
            self.fix_at(place);
        }
        self.set_following(true);
    }

    /// Out and followed back, with fixes from before a restart in between; the same along a course.
    fn replays_while_following(&mut self) {
        self.call(Call::Reset);
        self.base = (100_000_000, -1_799_999_000);
        self.east_e7 = 9_132;
        self.at = (0, 0);
        self.fix();
        self.ride((0, 200), 40);
        self.set_following(true);
        self.replay_on_the_way((30, 160));
        self.set_course(&[(0, 120), (0, 60), (60, 0)]);
        self.call(Call::Dump);
        self.set_following(false);
        self.set_following(true);
        self.replay_on_the_way((30, 60));
        self.set_course(&[]);
        self.call(Call::Dump);
    }

    fn replay_on_the_way(&mut self, to: Spot) {
        self.ride((0, to.1), 20);
        self.replays = true;
        self.ride(to, 20);
        self.replays = false;
        self.ride((0, to.1 - 20), 40);
    }

    /// Calls that questions 2, 3 and 4 refuse, each with something else wrong behind it.
    fn is_refused(&mut self) {
        const LAT: i32 = 900_000_001;
        const LON: i32 = -1_800_000_001;
        for place in [(LAT, LON), (-LAT, 0), (0, LON), (0, -LON)] {
            self.fix_at(place);
            self.call(Call::Replay(place, self.now_ms));
        }
        self.call(Call::SetCourse(vec![(LAT, LON); 25]));
        self.call(Call::SetCourse(vec![(0, 0), (0, LON), (LAT, 0)]));
        self.call(Call::SetCourse(vec![(0, 0), (LAT, 0), (0, LON)]));
        self.call(Call::Dump);
    }

    /// Bends so far aside that a thinning takes so many passes, each on a ride of its own.
    fn thins_by_every_count(&mut self) {
        const ASIDE_E7: i32 = 405;
        self.replays = true;
        for passes in [4, 6, 7, 8, 9, 10, 11, 12, 13, 14, 15, 16, 17] {
            self.call(Call::Reset);
            for k in 0..19 {
                self.wait(1_000);
                self.fix_at((k % 2 * (ASIDE_E7 << (passes - 1)), 4_496 * k));
            }
        }
        self.replays = false;
    }
}
