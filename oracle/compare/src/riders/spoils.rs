//! Calls that are given what a question refuses, and `thin` alone.
use super::rider::Rider;
use crate::script::{Call, Question, Spoil, Thin};

impl Rider {
    /// Things spoiled, one at least, and a call.
    pub fn spoil(&mut self) {
        if self.spoiled() {
            return;
        }
        let first = self.random.below(Spoil::WAYS.len());
        for k in 0..Spoil::WAYS.len() {
            let (question, ways) = Spoil::WAYS[(first + k) % Spoil::WAYS.len()];
            if k == 0 || self.random.once_in(3) {
                let which = self.random.below(ways.into()) as u8;
                self.call(Call::Spoil(Spoil { question, which }));
            }
        }
        if self.random.once_in(20) {
            self.write_log();
        }
        self.some_call();
    }

    /// What was spoiled waits for its call.
    fn spoiled(&self) -> bool {
        let waiting = self.calls.iter().rev().take_while(|call| call.prepares());
        waiting.into_iter().any(|call| matches!(call, Call::Spoil(_)))
    }

    /// A call that may change something, or one that asks.
    fn some_call(&mut self) {
        match self.random.below(24) {
            0 | 1 => self.tell(),
            2 => self.missing(),
            3 => self.call(Call::Replay(self.base.place(self.ahead(30.0, 9.0)), self.now_ms)),
            4 => self.set_following(true),
            5 => self.set_following(false),
            6 => self.press(),
            7 => self.few_points(),
            8 => self.call(Call::EndReplay),
            9 if self.random.once_in(3) => self.call(Call::Reset),
            10 => self.settle(),
            11 => self.step(),
            12 => self.thin(),
            13 => self.rebuild(),
            14 => self.caught_up(),
            15 => self.call(Call::Dump),
            16..20 => self.refused(),
            20 => self.bad_step(),
            _ => {
                let question = self.random.pick(&Question::ALL);
                self.call(Call::Ask(question));
            }
        }
    }

    /// Over no file.
    fn bad_step(&mut self) {
        self.call(Call::Bytes(0));
        self.step();
    }

    /// In buffers of every kind of size, at every kind of tolerance.
    pub fn thin(&mut self) {
        let size = match self.random.below(12) {
            0 => self.random.between(0, 12_291),
            1 => self.random.pick(&[0, 6, 9, 12_288, 12_291]),
            2 => 3 * self.random.between(3, 20) + self.random.between(1, 2),
            _ => 3 * self.random.between(3, 20),
        };
        let crumbs = size / 3;
        let len = match self.random.below(12) {
            0 => self.random.pick(&[crumbs + 1, 1 << 63, usize::MAX]),
            1 => self.random.pick(&[0, 1, 2, 3]),
            2 => self.random.between(0, crumbs),
            _ => crumbs,
        };
        let tolerance = self.tolerance();
        self.call(Call::Thin(Thin { size, len, tolerance }));
    }

    fn tolerance(&mut self) -> u32 {
        /// Zeros, the least above and below them, the greatest, infinities, -1, NaNs.
        const EDGES: [u32; 11] = [
            0,
            1 << 31,
            1,
            1 << 31 | 1,
            0x7f7f_ffff,
            0x7f80_0000,
            0xff80_0000,
            0xbf80_0000,
            0x7fc0_0000,
            0xffc0_0000,
            0x7f80_0001,
        ];
        match self.random.below(8) {
            0 | 1 => self.random.pick(&EDGES),
            2 => self.random.word(),
            3 | 4 => self.random.pick(&[1e-9_f32, 1e-5, 1e-3, 0.5]).to_bits(),
            _ => 6.0_f32.to_bits(),
        }
    }
}
