//! The breadcrumb built again from the ride log.
use crate::{Homing, REBUILD_WORDS, Refusal, door, taken};

pub struct Rebuild([u64; REBUILD_WORDS]);

impl Rebuild {
    /// Of ride `recovered` and those after it, from a log whose slots below `upper` are written.
    pub fn new(recovered: u32, upper: usize) -> Result<Self, Refusal> {
        let mut rebuild = [0; REBUILD_WORDS];
        taken(door::rebuild_new(&mut rebuild, recovered, upper), Self(rebuild))
    }

    /// A rebuild whose state was stored. What is no rebuild's state refuses every call.
    pub fn resumed(words: [u64; REBUILD_WORDS]) -> Self {
        Self(words)
    }

    /// The state, to be stored: a mark, the recovered ride, the next slot; whether it is pending, and
    /// then whether the recovered ride's latest time is known, and the time; the clock.
    pub fn stored(&self) -> [u64; REBUILD_WORDS] {
        self.0
    }

    /// Up to `budget` more slots of the chain file; whether all is read and decided.
    pub fn step(
        &mut self,
        homing: &mut Homing,
        file: &[u8],
        upper: usize,
        budget: usize,
    ) -> Result<bool, Refusal> {
        let Homing { words, numbers, crumbs, .. } = homing;
        let mut done = 0;
        let number =
            door::rebuild_step(&mut self.0, words, numbers, crumbs, file, upper, budget, &mut done);
        taken(number, done != 0)
    }

    pub fn caught_up(&self, upper: usize) -> Result<bool, Refusal> {
        let mut flag = 0;
        taken(door::rebuild_caught_up(&self.0, upper, &mut flag), ())?;
        Ok(flag != 0)
    }

    /// Decides by a live fix at this time, if known.
    pub fn settle(&mut self, homing: &mut Homing, utc_ms: Option<u64>) -> Result<(), Refusal> {
        let (known, utc) = (utc_ms.is_some().into(), utc_ms.unwrap_or(0));
        let Homing { words, numbers, .. } = homing;
        taken(door::rebuild_settle(&mut self.0, words, numbers, known, utc), ())
    }
}
