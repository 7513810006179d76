//! What a chain file meets when the Rust retells it slot by slot.
use crate::chain::{self, Chain, RECORD, Record, Sample};
use crate::retelling::{CRUMBS, entry, refused, tell};
use vana::ride::homing::rebuild::Rebuild;
use vana::ride::homing::{Crumb, Homing, probe, rebuild};
use vana::state::{RebuildState, State};

/// A file, what the questions say to it, and its slots as far as it was retold.
pub struct Seen<'a> {
    pub file: &'a [u8],
    pub read: Result<Chain, u8>,
    /// The records along the chain, where it can be walked: where they stand, and their bytes.
    pub order: Vec<usize>,
    pub along: Vec<[u8; RECORD]>,
    pub slots: Vec<Slot>,
    /// What is printed.
    pub text: String,
}

/// A slot looked at, and the states before and after.
pub struct Slot {
    pub entry: Record,
    pub guide: [State; 2],
    pub rebuild: [RebuildState; 2],
}

impl<'a> Seen<'a> {
    pub fn of(file: &'a [u8]) -> Self {
        let read = chain::read(file);
        let records = chain::records(file);
        let order = records.and_then(chain::along).unwrap_or_default();
        let along = order.iter().map(|&k| records.unwrap_or_default()[k]).collect();
        let (slots, text) = match &read {
            Err(number) => (Vec::new(), refused(*number)),
            Ok(chain) => slots(chain),
        };
        Self { file, read, order, along, slots, text }
    }

    pub fn refused(&self, number: u8) -> bool {
        self.read == Err(number)
    }

    pub fn size(&self) -> (usize, usize) {
        (self.file.len() / RECORD, self.file.len() % RECORD)
    }

    /// The first entry that a question refuses, where one does and such a thing holds of it.
    pub fn fault(&self, number: u8, such: impl Fn(&Record) -> bool) -> bool {
        let first = self.along.iter().map(Record::read).find(|entry| entry.asked().is_err());
        self.refused(number) && first.is_some_and(|entry| such(&entry))
    }

    /// Behind the first entry that a question refuses stands one that another refuses.
    pub fn then_another(&self) -> bool {
        let mut asked = self.along.iter().filter_map(|record| Record::read(record).asked().err());
        let first = asked.next();
        asked.any(|number| Some(number) != first)
    }

    /// An accepted file with such a record on its chain, as bytes.
    pub fn bytes(&self, such: impl Fn(&[u8; RECORD]) -> bool) -> bool {
        self.read.is_ok() && self.along.iter().any(such)
    }

    /// An accepted file with such an entry.
    pub fn entry(&self, such: impl Fn(&Record) -> bool) -> bool {
        self.slots.iter().any(|slot| such(&slot.entry))
    }

    /// An accepted file with such a sample, used, in a Samples entry.
    pub fn sample(&self, such: impl Fn(&Sample) -> bool) -> bool {
        self.entry(|entry| entry.kind == 2 && entry.used().iter().any(&such))
    }

    pub fn ride(&self, such: impl Fn(u32, u32) -> bool) -> bool {
        let recovered = self.read.as_ref().map_or(0, |chain| chain.recovered);
        self.entry(|entry| such(entry.ride, recovered))
    }

    /// At the decision: when the recovered ride's latest fix was, and the later ride's first.
    pub fn decision(&self) -> Option<(Option<u64>, Option<u64>)> {
        let slot = self.slots.iter().find(|slot| slot.decides())?;
        let first = slot.entry.used().iter().find(|sample| sample.place.is_some())?;
        Some((slot.rebuild[0].last_utc, first.utc_ms))
    }

    pub fn decided(&self, such: impl Fn(u64, u64) -> bool) -> bool {
        matches!(self.decision(), Some((Some(last), Some(first))) if such(last, first))
    }

    pub fn carried_on(&self) -> bool {
        self.decided(|last, first| last.abs_diff(first) <= 1_800_000)
    }

    /// The passes of each thinning.
    pub fn thinnings(&self) -> impl Iterator<Item = u32> {
        self.slots.iter().filter_map(Slot::passes)
    }

    /// An accepted file that ends with so many crumbs.
    pub fn holds(&self, such: impl Fn(usize) -> bool) -> bool {
        let last = self.slots.last().map_or(0, |slot| slot.guide[1].len);
        self.read.is_ok() && such(last)
    }

    /// A thinning ran before the decision.
    pub fn thinned_before(&self) -> bool {
        self.slots.iter().any(|slot| !slot.rebuild[0].decided && slot.passes().is_some())
    }

    pub fn pending(&self) -> bool {
        self.read.is_ok() && self.slots.last().is_none_or(|slot| !slot.rebuild[1].decided)
    }

    /// In an entry that was visited stands a place so far east of the origin, in 1e-7 degree, the plain
    /// difference.
    pub fn east(&self, such: impl Fn(i64) -> bool) -> bool {
        self.slots.iter().filter(|slot| slot.visited()).any(|slot| {
            let Some((_, lon0)) = slot.guide[1].origin else { return false };
            let places = slot.entry.used().iter().filter_map(|sample| sample.place);
            places.into_iter().any(|(_, lon)| such(i64::from(lon) - i64::from(lon0)))
        })
    }
}

impl Slot {
    pub fn decides(&self) -> bool {
        !self.rebuild[0].decided && self.rebuild[1].decided
    }

    /// It has samples, and they were gone through.
    pub fn visited(&self) -> bool {
        self.rebuild[0].clock_ms < self.rebuild[1].clock_ms
    }

    /// The passes of `Homing::thin`, where it ran. Else only a reset leaves fewer crumbs. Each pass
    /// but the last doubles the tolerance.
    pub fn passes(&self) -> Option<u32> {
        let [before, after] = &self.guide;
        let exponent = |state: &State| state.tolerance.to_bits() >> 23;
        (after.len < before.len && !self.decides()).then(|| 1 + exponent(after) - exponent(before))
    }
}

/// Slot by slot, each with a budget of 1.
fn slots(chain: &Chain) -> (Vec<Slot>, String) {
    let mut crumbs = vec![Crumb::default(); CRUMBS];
    let mut homing = Homing::new(&mut crumbs);
    let upper = chain.entries.len();
    let mut rebuild = Rebuild::new(chain.recovered, upper);
    let slots = chain.entries.iter().map(|&record| {
        let before = (probe::state(&homing), rebuild::probe::state(&rebuild));
        rebuild.step(&mut homing, upper, 1, |_| entry(&record));
        Slot {
            entry: record,
            guide: [before.0, probe::state(&homing)],
            rebuild: [before.1, rebuild::probe::state(&rebuild)],
        }
    });
    let slots = slots.collect();
    (slots, tell(&homing, &rebuild))
}
