//! Retelling a chain file by rules that can be bent: what a mistaken program would print. Only the
//! guide itself is the Rust's.
use crate::chain::{MOST, RECORD, Record, Sample};
use crate::retelling::{CRUMBS, refused, told};
use vana::ride::homing::{Crumb, Homing};

/// The rules of the file, of its entries and of the rebuild.
#[derive(Clone, Copy)]
pub struct Rules {
    /// Question 6, of the file's size in bytes.
    pub sized: fn(usize) -> bool,
    /// Whether a next lies within this many records.
    pub within: fn(usize, usize) -> bool,
    /// Whether a record met twice is refused; else the chain ends there.
    pub twice_refused: bool,
    pub record: fn(&[u8; RECORD]) -> Record,
    /// The questions put to the entries, of the whole file too.
    pub asked: fn(&[Record], &[Record]) -> Result<(), u8>,
    /// The entries in the order of the slots, of those along the chain.
    pub slots: fn(Vec<Record>) -> Vec<Record>,
    /// Whether an entry of this ride is visited, the recovered one being the second.
    pub visited: fn(u32, u32) -> bool,
    pub told_by: fn(&Record) -> bool,
    pub own: fn(u32, u32) -> bool,
    /// By how much a sample moves the clock on.
    pub tick: fn(&Sample) -> u64,
    /// The latest time after this sample, which was the second before it.
    pub last: fn(&Sample, Option<u64>) -> Option<u64>,
    /// Whether the later ride's first sample decides even without a place.
    pub unlocated_decides: bool,
    pub carries_on: fn(Option<u64>, Option<u64>) -> bool,
    pub reset_clears_clock: bool,
    pub reset_is_made: bool,
    /// Whether the fix that decides is replayed.
    pub first_replayed: bool,
    /// Whether the recovered ride's fixes are replayed behind the decision.
    pub recovered_goes_on: bool,
    pub settles: bool,
    pub crumbs: usize,
}

pub const RULES: Rules = Rules {
    sized: |size| size.is_multiple_of(RECORD) && (1..=MOST).contains(&(size / RECORD)),
    within: |next, count| next < count,
    twice_refused: true,
    record: Record::read,
    asked: |entries, _| entries.iter().try_for_each(Record::asked),
    slots: |entries| entries,
    visited: |ride, recovered| ride >= recovered,
    told_by: |entry| entry.kind == 2,
    own: |ride, recovered| ride != recovered,
    tick: |_| 1_000,
    last: |sample, last| sample.place.and(sample.utc_ms).or(last),
    unlocated_decides: false,
    carries_on: |last, first| last.zip(first).is_some_and(|(a, b)| a.abs_diff(b) <= 1_800_000),
    reset_clears_clock: false,
    reset_is_made: true,
    first_replayed: true,
    recovered_goes_on: false,
    settles: false,
    crumbs: CRUMBS,
};

impl Rules {
    pub fn retell(&self, file: &[u8]) -> String {
        match self.read(file) {
            Err(number) => refused(number),
            Ok((recovered, entries)) => self.retold(recovered, &entries),
        }
    }

    /// The recovered ride and the entries.
    fn read(&self, file: &[u8]) -> Result<(u32, Vec<Record>), u8> {
        if !(self.sized)(file.len()) {
            return Err(6);
        }
        let (bytes, _) = file.as_chunks();
        let records: Vec<_> = bytes.iter().map(self.record).collect();
        let entries = self.along(&records)?;
        (self.asked)(&entries, &records)?;
        let recovered = records.first().map_or(0, |record| record.ride);
        Ok((recovered, (self.slots)(entries)))
    }

    fn along(&self, records: &[Record]) -> Result<Vec<Record>, u8> {
        let mut met = vec![false; records.len()];
        let mut along = Vec::new();
        let mut next = records.first().map_or(0, |record| record.next as usize);
        while next != 0 {
            if !(self.within)(next, records.len()) {
                return Err(7);
            }
            let Some(record) = records.get(next) else { break };
            match met[next] {
                true if self.twice_refused => return Err(7),
                true => break,
                false => met[next] = true,
            }
            along.push(*record);
            next = record.next as usize;
        }
        Ok(along)
    }

    fn retold(&self, recovered: u32, entries: &[Record]) -> String {
        let mut crumbs = vec![Crumb::default(); self.crumbs];
        let homing = Homing::new(&mut crumbs);
        let mut retelling =
            Retelling { rules: self, homing, clock_ms: 0, last: None, decided: self.settles };
        for entry in entries.iter().filter(|entry| (self.visited)(entry.ride, recovered)) {
            if (self.told_by)(entry) {
                retelling.visit(entry, (self.own)(entry.ride, recovered));
            }
        }
        told(retelling.homing.crumbs(), retelling.clock_ms, retelling.decided)
    }
}

struct Retelling<'a> {
    rules: &'a Rules,
    homing: Homing<'a>,
    clock_ms: u64,
    last: Option<u64>,
    decided: bool,
}

impl Retelling<'_> {
    fn visit(&mut self, entry: &Record, own: bool) {
        for sample in entry.used() {
            self.clock_ms += (self.rules.tick)(sample);
            let mut replayed = true;
            if own && !self.decided && (sample.place.is_some() || self.rules.unlocated_decides) {
                self.decide(sample.utc_ms);
                replayed = self.rules.first_replayed;
            } else if !own && self.decided {
                replayed = self.rules.recovered_goes_on;
            } else if !own {
                self.last = (self.rules.last)(sample, self.last);
            }
            if let Some(place) = sample.place.filter(|_| replayed) {
                self.homing.replay(place, self.clock_ms);
            }
        }
    }

    fn decide(&mut self, first: Option<u64>) {
        self.decided = true;
        if (self.rules.carries_on)(self.last, first) || !self.rules.reset_is_made {
            return;
        }
        self.homing.reset();
        if self.rules.reset_clears_clock {
            self.clock_ms = 0;
        }
    }
}
