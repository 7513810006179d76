//! The largest buffer, filled until it is thinned, and ridden back.
use super::ground::Base;
use super::rider::Rider;
use crate::random::Random;
use crate::script::Script;

const CRUMBS: usize = 4_096;

pub fn script(mut random: Random) -> Script {
    let base = Base::at(random.pick(&[-300_000_000, 0, 500_000_000]), 1_799_000_000);
    let swing = random.pick(&[7.0, 13.0, 40.0]);
    let mut rider = Rider::from(random, 64, base);
    rider.replays = true;
    rider.sway(20.0, swing, CRUMBS + 3);
    rider.replays = false;
    for _ in 0..8 {
        rider.scene();
    }
    Script { capacity: CRUMBS, room: 64, calls: rider.calls }
}
