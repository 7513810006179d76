//! Legs half round the globe, of a course and of the ride, so that distances along are larger than
//! f32 can count metres in.
use super::ground::{LAT_MAX, LON_MAX};
use crate::Place;
use crate::random::Random;
use crate::script::{Call, Script};

pub fn script(mut random: Random) -> Script {
    let room = random.pick(&[2, 64, 400]);
    let capacity = random.pick(&[8, 8, 64, 600, 4_096]);
    let route: Vec<Place> = (0..room).map(|_| corner(&mut random)).collect();
    let first = (0, random.pick(&[0, 1_000]));
    let mut calls = vec![Call::Observe(Some(first), 0), Call::SetCourse(route.clone())];
    let (legs, presses) = match capacity {
        ..=64 => (random.between(50, 300), random.pick(&[8, 12])),
        _ => (400, random.pick(&[12, 1_000, 1_000])),
    };
    let mut at = 0;
    for second in 1..legs as u64 {
        let now_ms = second * 1_000;
        at = match random.below(4) {
            0 => random.below(room),
            _ => (at + random.below(3)).min(room - 1),
        };
        let place = if random.once_in(3) { corner(&mut random) } else { route[at] };
        calls.push(Call::Observe(Some(place), now_ms));
        match random.below(presses) {
            0..4 => calls.push(Call::SetFollowing(true, now_ms)),
            4 => calls.push(Call::SetFollowing(false, now_ms)),
            5 => calls.push(Call::Replay(corner(&mut random), now_ms)),
            _ => {}
        }
    }
    Script { capacity, room, calls }
}

/// A place near a pole, a quarter of a turn east or west.
fn corner(random: &mut Random) -> Place {
    let mut near = |most: i64| {
        let jitter = random.pick(&[0, 1, 64, 3_000, 40_000]);
        random.pick(&[-1, 1]) * (most - jitter)
    };
    (near(LAT_MAX) as i32, near(LON_MAX / 2) as i32)
}
