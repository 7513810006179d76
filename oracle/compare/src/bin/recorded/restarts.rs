//! The breadcrumb built again from a chain file.
use super::{Rider, Spot};
use compare::chain::{Raw, Record, Sample, linked};
use compare::script::{Call, Thin};

/// The recovered ride, and when it began, in ms.
const RIDE: u32 = 5;
const BEGAN: u64 = 5_000_000;
/// The later ride carries on at most so long after the recovered one, in ms.
const CONTINUE: u64 = 1_800_000;

/// A spot or none, and the time in seconds since the recovered ride began, or none.
type Seen = (Option<Spot>, Option<u64>);

impl Rider {
    fn entry(&self, ride: u32, kind: u8, seen: &[Seen]) -> Record {
        let mut entry = Record { ride, kind, count: seen.len() as u8, ..Record::default() };
        for (sample, (spot, second)) in entry.samples.iter_mut().zip(seen) {
            let utc_ms = second.map(|second| BEGAN + 1_000 * second);
            *sample = Sample { place: spot.map(|spot| self.place(spot)), utc_ms };
        }
        entry
    }

    /// Another chain file.
    pub fn log(&mut self, records: &[Record]) {
        self.call(Call::Bytes(0));
        records.iter().for_each(|record| self.call(Call::Record(Raw::from(record))));
    }

    /// Another ride's start, with nothing held.
    fn begins(&mut self) {
        self.call(Call::Reset);
        self.base = (-350_000_000, 1_499_990_000);
        self.east_e7 = 10_978;
        self.at = (0, 0);
    }

    /// So many Samples entries of the recovered ride, from side to side.
    fn bends(&self, entries: u64) -> Vec<Record> {
        let spot = |k: u64| (20 * k as i64, if k.is_multiple_of(2) { 0 } else { 30 });
        let entry = |first: u64| {
            let seen = [0, 1, 2, 3].map(|k| (Some(spot(first + k)), Some(first + k)));
            self.entry(RIDE, 2, &seen)
        };
        (0..entries).map(|k| entry(4 * k)).collect()
    }

    /// Entries of other kinds and of an older ride, enough bends for a thinning, unlocated samples and some
    /// without a time, and a later ride that carries on at the last moment.
    fn restarted(&self) -> Vec<Record> {
        let (last, first) = (30, 30 + CONTINUE / 1_000);
        let mut entries = vec![self.entry(RIDE, 1, &[])];
        entries.extend(self.bends(6));
        entries.extend([
            self.entry(RIDE, 3, &[(Some((0, 900)), Some(25))]),
            self.entry(RIDE - 1, 2, &[(Some((0, 900)), Some(26))]),
            self.entry(RIDE, 2, &[(None, Some(27)), (Some((500, 30)), Some(last))]),
            self.entry(RIDE, 2, &[(Some((520, 0)), None), (None, Some(99))]),
            self.entry(RIDE + 1, 2, &[(None, Some(7_000))]),
            self.entry(RIDE + 1, 2, &[(Some((540, 30)), Some(first)), (Some((560, 0)), None)]),
            self.entry(RIDE, 2, &[(Some((0, 900)), Some(31))]),
            self.entry(RIDE + 2, 2, &[(Some((580, 30)), Some(9_000))]),
        ]);
        entries
    }

    /// In turns, with a fix and questions between them.
    pub fn builds_again(&mut self) {
        self.begins();
        let entries = self.restarted();
        let upper = entries.len();
        self.log(&linked(RIDE, &entries));
        self.call(Call::CaughtUp(0));
        self.call(Call::CaughtUp(1));
        self.call(Call::Rebuild(RIDE, upper));
        for (below, budget) in [(upper, 0), (0, 9), (upper, 1), (upper, 1), (4, 9), (upper, 3)] {
            self.call(Call::Step(below, budget));
        }
        self.at = (500, 10);
        self.fix();
        self.call(Call::CaughtUp(upper));
        for budget in [1, 3, 1, 1, 1, 1] {
            self.call(Call::Step(upper, budget));
        }
        self.call(Call::Step(upper + 2, 99));
        self.call(Call::CaughtUp(upper + 2));
        self.call(Call::CaughtUp(upper + 3));
        self.call(Call::Settle(true, 0));
        self.call(Call::EndReplay);
        self.call(Call::Dump);
        self.ride((620, 10), 40);
    }

    /// While the breadcrumb is followed, and then the course; a later ride 1 ms too late.
    pub fn builds_again_while_following(&mut self) {
        self.begins();
        self.fix();
        self.ride((0, 200), 40);
        self.set_following(true);
        self.log(&linked(RIDE, &self.bends(1)));
        self.call(Call::Rebuild(RIDE, 1));
        self.call(Call::Step(1, 1));
        self.ride((0, 120), 40);
        self.set_following(false);
        self.set_course(&[(0, 120), (0, 60), (60, 0)]);
        self.set_following(true);
        let mut late = self.entry(RIDE + 1, 2, &[(Some((60, 60)), Some(0)), (Some((90, 0)), None)]);
        late.samples[0].utc_ms = Some(BEGAN + 3_000 + CONTINUE + 1);
        let entries = [self.bends(1)[0], late];
        self.log(&linked(RIDE, &entries));
        self.call(Call::Rebuild(RIDE, 2));
        self.call(Call::Step(2, 1));
        self.ride((0, 60), 40);
        self.call(Call::Step(2, 1));
        self.call(Call::Dump);
    }

    /// By a live fix: on both sides of the limit, and without a time.
    pub fn settles(&mut self) {
        self.log(&linked(RIDE, &self.bends(1)));
        let last = BEGAN + 3_000;
        for (known, utc_ms) in [
            (true, last + CONTINUE),
            (true, last - CONTINUE),
            (true, last + CONTINUE + 1),
            (true, last - CONTINUE - 1),
            (false, last),
        ] {
            self.call(Call::Rebuild(RIDE, 1));
            self.call(Call::Step(1, 1));
            self.call(Call::Settle(known, utc_ms));
            self.call(Call::Step(1, 1));
        }
        self.call(Call::Settle(true, last));
        self.call(Call::Rebuild(RIDE, 1));
        self.call(Call::Settle(true, last));
    }

    /// `thin` on the held crumbs, in buffers that they fill and do not, and refused.
    pub fn thins_alone(&mut self) {
        self.begins();
        self.log(&linked(RIDE, &self.bends(3)));
        self.call(Call::Rebuild(RIDE, 3));
        self.call(Call::Step(3, 3));
        for (size, len, tolerance) in [
            (24, 8, 6.0),
            (24, 8, 16.0),
            (24, 8, 0.000_1),
            (24, 8, 0.0),
            (24, 8, -0.0),
            (24, 8, f32::INFINITY),
            (24, 6, 6.0),
            (48, 16, 6.0),
            (9, 0, 6.0),
            (8, 2, 6.0),
            (6, 2, 6.0),
            (12_291, 4, 6.0),
            (24, 9, 6.0),
            (24, usize::MAX, 6.0),
            (24, 8, -1.0),
            (24, 8, f32::from_bits(0x7fc0_0000)),
        ] {
            self.call(Call::Thin(Thin { size, len, tolerance: tolerance.to_bits() }));
        }
    }
}
