//! Chain files, and the breadcrumb built again from them in several turns.
use super::rider::Rider;
use crate::chain::{self, MOST, RECORD, Raw};
use crate::chains::files;
use crate::script::Call;

/// What a rider knows of the chain file.
#[derive(Default)]
pub struct Log {
    /// About how many slots it has, and how many before a later ride's.
    slots: usize,
    own: usize,
    recovered: u32,
    /// The times of fixes in these.
    times: Vec<u64>,
    /// How many slots the rebuild has looked at, if no call was refused.
    looked: usize,
}

impl Rider {
    /// A rebuild from another file; often while something is followed, or the rider turns round.
    pub fn rebuilt(&mut self) {
        self.write_log();
        match self.random.below(6) {
            0 => self.set_following(true),
            1 => self.followed_course(),
            2 => self.turning_round(),
            _ => {}
        }
        match self.random.below(6) {
            0 => self.settled(),
            1..4 => self.at_once(),
            _ => self.in_turns(),
        }
        if self.random.once_in(3) {
            self.call(Call::EndReplay);
        }
    }

    /// The recovered ride read, and settled before the later one's first fix is.
    fn settled(&mut self) {
        let Log { recovered, own, .. } = self.log;
        self.call(Call::Rebuild(recovered, own));
        self.call(Call::Step(own, own));
        self.log.looked = own;
        self.settle();
        self.step();
    }

    /// Every slot in one step, and something behind it.
    fn at_once(&mut self) {
        self.rebuild();
        let slots = self.log.slots;
        self.call(Call::Step(slots, slots + 1));
        self.log.looked = slots;
        self.turn();
    }

    fn in_turns(&mut self) {
        self.rebuild();
        for _ in 0..self.random.between(1, 9) {
            self.turn();
        }
        if self.random.once_in(2) {
            self.settle();
        }
    }

    /// A course from here on, followed.
    fn followed_course(&mut self) {
        if self.room < 2 {
            return;
        }
        self.tell();
        self.set_course(vec![self.here, self.ahead(300.0, 0.0)]);
        self.set_following(true);
    }

    /// Some fixes back over the trail, fewer than start a follow.
    fn turning_round(&mut self) {
        let path = self.way_back();
        let fixes = self.random.between(2, 7);
        self.walk(&path, 20.0, 0.0, 0.0, fixes);
    }

    /// Another chain file; sometimes the last records come late, or it is cut or filled up.
    pub fn write_log(&mut self) {
        let count = match self.random.below(100) {
            0 => self.random.between(25, 120),
            1..20 => self.random.between(0, 2),
            _ => self.random.between(3, 24),
        };
        let place = self.base.place(self.here);
        let file = files::near(place, count, &mut self.random);
        self.call(Call::Bytes(0));
        self.log = Log::of(&file);
        let (records, _) = file.as_chunks::<RECORD>();
        let late = if self.random.once_in(12) { self.random.below(records.len()) } else { 0 };
        let (early, late) = records.split_at(records.len() - late);
        early.iter().for_each(|record| self.call(Call::Record(Raw::read(record))));
        if !late.is_empty() {
            self.step();
        }
        late.iter().for_each(|record| self.call(Call::Record(Raw::read(record))));
        if self.random.once_in(12) {
            self.resize_log(file.len());
        }
    }

    /// Sizes that question 6 refuses, and the largest that it takes.
    fn resize_log(&mut self, size: usize) {
        let size = match self.random.below(6) {
            0 => 0,
            1 => self.random.between(1, RECORD - 1),
            2 => size - self.random.between(1, RECORD - 1),
            3 => size + self.random.between(1, RECORD - 1),
            4 => RECORD * MOST,
            _ => RECORD * (MOST + 1),
        };
        self.call(Call::Bytes(size.min(RECORD * (MOST + 1))));
    }

    pub fn rebuild(&mut self) {
        let Log { recovered, slots, .. } = self.log;
        let recovered = match self.random.below(12) {
            0 => recovered.wrapping_add(1),
            1 => recovered.wrapping_sub(1),
            2 => self.random.pick(&[0, u32::MAX]),
            _ => recovered,
        };
        let upper = self.random.pick(&[slots, slots, 0, slots + 1, usize::MAX]);
        self.log.looked = 0;
        self.call(Call::Rebuild(recovered, upper));
    }

    /// A step, or something else between two.
    fn turn(&mut self) {
        match self.random.below(24) {
            0 | 1 => self.settle(),
            2..4 => self.caught_up(),
            4 => self.press(),
            5 => self.spoil(),
            6 => self.thin(),
            7 => self.ask(),
            8 => self.go(self.ahead(20.0, 0.0)),
            9 => self.lose(),
            10 => self.call(Call::EndReplay),
            11 if self.random.once_in(4) => self.restart(),
            _ => self.step(),
        }
    }

    pub fn step(&mut self) {
        let slots = self.log.slots;
        let upper = match self.random.below(12) {
            0 => self.random.between(0, slots),
            1 => slots + self.random.between(1, 3),
            2 => self.random.pick(&[0, slots.saturating_sub(1), slots + 50, usize::MAX]),
            _ => slots,
        };
        let budget = match self.random.below(12) {
            0 => 0,
            1..4 => 1,
            4..8 => self.random.between(2, 5),
            8 if upper <= slots + 50 => usize::MAX,
            _ => self.random.between(0, slots + 2),
        };
        let looked = self.log.looked;
        self.log.looked = looked.saturating_add(budget).min(upper).max(looked);
        self.call(Call::Step(upper, budget));
    }

    /// By no time, one on the limits beside a fix of the log, or any.
    pub fn settle(&mut self) {
        const APART: [u64; 5] = [0, 1_799_999, 1_800_000, 1_800_000, 1_800_001];
        let times = &self.log.times;
        let last = times.last().copied().unwrap_or(0);
        let near = match self.random.once_in(2) || times.is_empty() {
            true => last,
            false => self.random.pick(times),
        };
        let apart = self.random.pick(&APART);
        let utc_ms = match self.random.below(8) {
            0..4 => near.saturating_add(apart),
            4..6 => near.saturating_sub(apart),
            6 => self.random.pick(&[0, u64::MAX]),
            _ => self.random.bits(),
        };
        let known = !self.random.once_in(6);
        self.call(Call::Settle(known, utc_ms));
    }

    pub fn caught_up(&mut self) {
        let Log { looked, slots, .. } = self.log;
        let near = [looked, looked, looked + 1, looked + 1, looked.saturating_sub(1)];
        let upper = match self.random.below(8) {
            0 => self.random.pick(&[0, 1, slots, usize::MAX]),
            _ => self.random.pick(&near),
        };
        self.call(Call::CaughtUp(upper));
    }
}

impl Log {
    fn of(file: &[u8]) -> Self {
        let (records, _) = file.as_chunks::<RECORD>();
        let Ok(chain::Chain { recovered, entries }) = chain::read(file) else {
            return Self { slots: records.len(), ..Self::default() };
        };
        let own = entries.iter().take_while(|entry| entry.ride <= recovered).count();
        let told = entries[..own].iter().filter(|entry| entry.ride == recovered && entry.kind == 2);
        let fixes = told.flat_map(chain::Record::used).filter(|sample| sample.place.is_some());
        let times = fixes.filter_map(|sample| sample.utc_ms).collect();
        Self { slots: entries.len(), own, recovered, times, looked: 0 }
    }
}
