//! Random scripts that reach a guide's less common states: riders who ride out and back, stray, stand,
//! lose the fix, load courses, press buttons, and have their breadcrumb built again. Buffers are mostly
//! small, so that thinnings are frequent. Only +, -, *, / and roots are used on f64, so a script is the
//! same on every machine.
mod buttons;
mod courses;
mod exact;
mod far;
mod full;
mod ground;
mod logs;
mod rider;
mod scenes;
mod spoils;

use crate::random::Random;
use crate::script::Script;
use rider::Rider;

/// Calls of a script that ends by itself, about, at least and at most.
const CALLS: (usize, usize) = (20, 400);

/// The `k`-th script of a seed.
pub fn script(seed: u64, k: u64) -> Script {
    let random = Random::new(seed, k);
    match k % 1_000 {
        0 => full::script(random),
        1..11 => far::script(random),
        11..200 => exact::script(random),
        200..220 => noise(random),
        220..320 => rebuilds(random),
        _ => ride(random),
    }
}

fn ride(mut random: Random) -> Script {
    let capacity = match random.below(20) {
        0..14 => random.between(8, 16),
        14..18 => random.between(17, 64),
        18 => random.between(65, 300),
        _ => random.pick(&[512, 4_096]),
    };
    let room = random.pick(&[0, 1, 2, 3, 8, 32, 64, 64, 64, 64, 300, 2_048]);
    let calls = match (capacity, random.once_in(4)) {
        (65..=300, true) => 2 * capacity,
        _ => random.between(CALLS.0, CALLS.1),
    };
    let mut rider = Rider::new(random, room);
    while rider.calls.len() < calls {
        rider.scene();
    }
    Script { capacity, room, calls: rider.calls }
}

/// Short rides, and the breadcrumb built again and again.
fn rebuilds(mut random: Random) -> Script {
    let (capacity, room) = (random.pick(&[8, 9, 10, 12, 16, 32]), random.pick(&[0, 2, 8]));
    let calls = random.between(CALLS.0, CALLS.1);
    let mut rider = Rider::new(random, room);
    while rider.calls.len() < calls {
        match rider.random.below(8) {
            0 => rider.scene(),
            1 => rider.straight(),
            2 => rider.zigzag(),
            _ => rider.rebuilt(),
        }
    }
    Script { capacity, room, calls: rider.calls }
}

/// Calls in random order, with little sense in them.
fn noise(mut random: Random) -> Script {
    let (capacity, room) = (random.between(8, 12), random.between(0, 6));
    let calls = random.between(CALLS.0, CALLS.1);
    let mut rider = Rider::new(random, room);
    while rider.calls.len() < calls {
        rider.anything();
    }
    Script { capacity, room, calls: rider.calls }
}
