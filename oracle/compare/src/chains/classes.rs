//! Classes of chain files: a comparison has to meet each.
use crate::chain::{HALF_TURN, HEAD, MOST, POLE, RECORD, Record, SAMPLE, Sample};
use crate::chains::seen::Seen;
use crate::retelling::CRUMBS;
use std::sync::atomic::{AtomicU64, Ordering::Relaxed};

/// A name, and what holds of the class's files.
type Class = (&'static str, fn(&Seen) -> bool);

const CLASSES: [Class; 90] = [
    ("refused 6: no bytes", |s| s.file.is_empty()),
    ("refused 6: less than a record", |s| s.size().0 == 0 && s.size().1 > 0),
    ("refused 6: records and a part of one", |s| (1..MOST).contains(&s.size().0) && s.size().1 > 0),
    ("refused 6: 683 records", |s| s.size() == (683, 0)),
    ("refused 6: more than 683 records", |s| s.size().0 > 683),
    ("refused 6: twice as long or more", |s| s.size().0 > 2 * MOST),
    ("refused 7: next the record count", |s| {
        s.refused(7) && past_the_end(s.file, |next, count| next == count)
    }),
    ("refused 7: next beyond it", |s| {
        s.refused(7) && past_the_end(s.file, |next, count| next > count)
    }),
    ("refused 7: a record met twice", |s| s.refused(7) && !past_the_end(s.file, |_, _| true)),
    ("refused 7: an entry before wrong as well", |s| s.refused(7) && wrong_on_the_way(s.file)),
    ("refused 8: kind 0", |s| s.fault(8, |e| e.kind == 0)),
    ("refused 8: kind 8", |s| s.fault(8, |e| e.kind == 8)),
    ("refused 8: kind 255", |s| s.fault(8, |e| e.kind == 255)),
    ("refused 8: its count wrong as well", |s| s.fault(8, |e| e.count > 4)),
    ("refused 8: its places wrong as well", |s| {
        s.fault(8, |e| wrong_place(e, 2) || wrong_place(e, 3))
    }),
    ("refused 8: another wrong entry behind", |s| s.refused(8) && s.then_another()),
    ("refused 5: count 5", |s| s.fault(5, |e| e.count == 5)),
    ("refused 5: count 255", |s| s.fault(5, |e| e.count == 255)),
    ("refused 5: Samples", |s| s.fault(5, |e| e.kind == 2)),
    ("refused 5: Pause", |s| s.fault(5, |e| e.kind == 3)),
    ("refused 5: its places wrong as well", |s| {
        s.fault(5, |e| wrong_place(e, 2) || wrong_place(e, 3))
    }),
    ("refused 5: another wrong entry behind", |s| s.refused(5) && s.then_another()),
    ("refused 2: Samples", |s| s.fault(2, |e| e.kind == 2)),
    ("refused 2: another kind", |s| s.fault(2, |e| e.kind != 2)),
    ("refused 2: 1 beyond a pole", |s| {
        s.fault(2, |e| e.used().iter().any(|s| s.place.is_some_and(|p| p.0.abs() == POLE + 1)))
    }),
    ("refused 2: a longitude wrong as well", |s| s.fault(2, |e| wrong_place(e, 3))),
    ("refused 2: another wrong entry behind", |s| s.refused(2) && s.then_another()),
    ("refused 3: Samples", |s| s.fault(3, |e| e.kind == 2)),
    ("refused 3: another kind", |s| s.fault(3, |e| e.kind != 2)),
    ("refused 3: 1 beyond half a turn", |s| {
        s.fault(3, |e| e.used().iter().any(|s| s.place.is_some_and(|p| p.1.abs() == HALF_TURN + 1)))
    }),
    ("refused 3: a latitude behind wrong as well", |s| s.fault(3, |e| wrong_place(e, 2))),
    ("refused 3: another wrong entry behind", |s| s.refused(3) && s.then_another()),
    ("no entries", |s| s.read.is_ok() && s.along.is_empty()),
    ("681 entries", |s| s.read.is_ok() && s.along.len() == 681),
    ("682 records, not all on the chain", |s| {
        s.read.is_ok() && s.size().0 == MOST && s.along.len() < 681
    }),
    ("records off the chain", |s| s.read.is_ok() && s.size().0 > s.along.len() + 1),
    ("chain not in the file's order", |s| s.read.is_ok() && !s.order.is_sorted()),
    ("unread bytes of a record filled", |s| s.bytes(|record| record[10..HEAD] != [0; 6])),
    ("unread bits of a used sample's flags set", |s| {
        s.bytes(|record| used(record).any(|sample| sample[0] > 3))
    }),
    ("unread place of a used sample beyond the globe", |s| {
        s.bytes(|record| used(record).any(|sample| sample[0] & 1 == 0 && beyond(sample)))
    }),
    ("unread UTC of a used sample filled", |s| {
        s.bytes(|record| used(record).any(|sample| sample[0] & 2 == 0 && sample[12..] != [0; 8]))
    }),
    ("sample past count beyond the globe", |s| {
        s.bytes(|record| {
            let mut past = record[HEAD..].chunks(SAMPLE).skip(record[9].into());
            past.any(|sample| sample[0] & 1 == 1 && beyond(sample))
        })
    }),
    ("kind Start", |s| s.entry(|e| e.kind == 1)),
    ("kind Samples", |s| s.entry(|e| e.kind == 2)),
    ("kind Pause", |s| s.entry(|e| e.kind == 3)),
    ("kind Resume", |s| s.entry(|e| e.kind == 4)),
    ("kind Finish", |s| s.entry(|e| e.kind == 5)),
    ("kind Recovered", |s| s.entry(|e| e.kind == 6)),
    ("kind Full", |s| s.entry(|e| e.kind == 7)),
    ("another kind with places", |s| {
        s.entry(|e| e.kind != 2 && e.used().iter().any(|sample| sample.place.is_some()))
    }),
    ("count 0, Samples", |s| s.entry(|e| e.kind == 2 && e.count == 0)),
    ("count 1 to 3, Samples", |s| s.entry(|e| e.kind == 2 && (1..4).contains(&e.count))),
    ("unlocated sample", |s| s.sample(|sample| sample.place.is_none())),
    ("sample without UTC", |s| s.sample(|sample| sample.utc_ms.is_none())),
    ("latitude 900,000,000", |s| s.sample(|sample| sample.place.is_some_and(|p| p.0 == POLE))),
    ("latitude -900,000,000", |s| s.sample(|sample| sample.place.is_some_and(|p| p.0 == -POLE))),
    ("longitude 1,800,000,000", |s| {
        s.sample(|sample| sample.place.is_some_and(|p| p.1 == HALF_TURN))
    }),
    ("longitude -1,800,000,000", |s| {
        s.sample(|sample| sample.place.is_some_and(|p| p.1 == -HALF_TURN))
    }),
    ("older ride, passed by", |s| s.ride(|ride, recovered| ride < recovered)),
    ("ride two above the recovered", |s| {
        s.ride(|ride, recovered| ride == recovered.saturating_add(2))
    }),
    ("recovered 0", |s| s.ride(|_, recovered| recovered == 0)),
    ("recovered 4,294,967,295", |s| s.ride(|_, recovered| recovered == u32::MAX)),
    ("recovered ride behind the decision, left", |s| {
        let recovered = s.read.as_ref().map_or(0, |chain| chain.recovered);
        s.slots
            .iter()
            .any(|slot| slot.rebuild[0].decided && slot.visited() && slot.entry.ride == recovered)
    }),
    ("pending, no crumbs", |s| s.pending() && s.holds(|len| len == 0)),
    ("pending, crumbs", |s| s.pending() && s.holds(|len| len > 0)),
    ("carried on", |s| s.carried_on()),
    ("reset: too far apart", |s| {
        s.decision().is_some() && !s.carried_on() && s.decided(|_, _| true)
    }),
    ("reset: recovered ride's time unknown", |s| matches!(s.decision(), Some((None, Some(_))))),
    ("reset: later ride's time unknown", |s| matches!(s.decision(), Some((Some(_), None)))),
    ("reset: neither time known", |s| matches!(s.decision(), Some((None, None)))),
    ("1,800,000 ms later", |s| s.decided(|last, first| last.checked_add(1_800_000) == Some(first))),
    ("1,800,001 ms later", |s| s.decided(|last, first| last.checked_add(1_800_001) == Some(first))),
    ("1,800,000 ms earlier", |s| {
        s.decided(|last, first| first.checked_add(1_800_000) == Some(last))
    }),
    ("1,800,001 ms earlier", |s| {
        s.decided(|last, first| first.checked_add(1_800_001) == Some(last))
    }),
    ("the same time", |s| s.decided(|last, first| last == first)),
    ("times from 2^63 ms apart", |s| s.decided(|last, first| last.abs_diff(first) >= 1 << 63)),
    ("decided behind unlocated samples of its entry", |s| {
        s.slots.iter().any(|slot| {
            slot.decides() && slot.entry.used().first().is_some_and(|s| s.place.is_none())
        })
    }),
    ("a fix without UTC behind one with", |s| {
        s.entry(|e| {
            let timed = |s: &Sample| s.place.is_some() && s.utc_ms.is_some();
            let untimed = |s: &Sample| s.place.is_some() && s.utc_ms.is_none();
            e.used().windows(2).any(|pair| timed(&pair[0]) && untimed(&pair[1]))
        })
    }),
    ("an unlocated sample's UTC behind a fix's", |s| {
        s.entry(|e| {
            let unlocated = |s: &Sample| s.place.is_none() && s.utc_ms.is_some();
            e.used().windows(2).any(|pair| pair[0].place.is_some() && unlocated(&pair[1]))
        })
    }),
    ("wrap", |s| s.east(|east| east.abs() > i64::from(HALF_TURN))),
    ("half a turn, no wrap", |s| s.east(|east| east.abs() == i64::from(HALF_TURN))),
    ("512 crumbs", |s| s.holds(|len| len == CRUMBS)),
    ("window full, 48", |s| s.slots.iter().any(|slot| slot.guide[1].window_len >= 48)),
    ("thinning, 1 pass", |s| s.thinnings().any(|passes| passes == 1)),
    ("thinning, 2 to 17 passes", |s| s.thinnings().any(|passes| (2..18).contains(&passes))),
    ("thinning, 18 passes", |s| s.thinnings().any(|passes| passes == 18)),
    ("three thinnings", |s| s.thinnings().count() >= 3),
    ("thinning, later carried on", |s| s.carried_on() && s.thinned_before()),
    ("thinning, later reset", |s| s.decision().is_some() && !s.carried_on() && s.thinned_before()),
    ("thinning behind the decision", |s| {
        s.slots.iter().any(|slot| slot.rebuild[0].decided && slot.passes().is_some())
    }),
];

/// The bytes of a record's used samples.
fn used(record: &[u8; RECORD]) -> impl Iterator<Item = &[u8]> {
    record[HEAD..].chunks(SAMPLE).take(record[9].into())
}

/// A sample's place, whether its flag has it or not, lies beyond the globe.
fn beyond(sample: &[u8]) -> bool {
    let number = |at: usize| i32::from_le_bytes(std::array::from_fn(|k| sample[at + k]));
    number(4).unsigned_abs() > POLE as u32 || number(8).unsigned_abs() > HALF_TURN as u32
}

/// The chain leads past the end, by such a next, of so many records.
fn past_the_end(file: &[u8], such: impl Fn(usize, usize) -> bool) -> bool {
    let (records, _) = file.as_chunks::<RECORD>();
    let mut at = 0;
    for _ in records {
        let next = Record::read(&records[at]).next as usize;
        if next >= records.len() {
            return such(next, records.len());
        }
        at = next;
    }
    false
}

/// A record before the chain goes wrong is itself wrong.
fn wrong_on_the_way(file: &[u8]) -> bool {
    let (records, _) = file.as_chunks::<RECORD>();
    let (mut at, mut left) = (0, records.len());
    loop {
        let next = Record::read(&records[at]).next as usize;
        if next == 0 || next >= records.len() || left == 0 {
            return false;
        }
        if Record::read(&records[next]).asked().is_err() {
            return true;
        }
        (at, left) = (next, left - 1);
    }
}

fn wrong_place(entry: &Record, number: u8) -> bool {
    entry.used().iter().filter_map(|sample| sample.place).any(|(lat, lon)| match number {
        2 => lat.unsigned_abs() > POLE as u32,
        _ => lon.unsigned_abs() > HALF_TURN as u32,
    })
}

/// How many files of each class there were.
pub struct Met([AtomicU64; CLASSES.len()]);

impl Default for Met {
    fn default() -> Self {
        Self(std::array::from_fn(|_| AtomicU64::new(0)))
    }
}

impl Met {
    pub fn note(&self, seen: &Seen) {
        for ((_, meets), count) in CLASSES.iter().zip(&self.0) {
            if meets(seen) {
                count.fetch_add(1, Relaxed);
            }
        }
    }

    /// Prints the counts; whether none is 0.
    pub fn print(&self) -> bool {
        for ((name, _), count) in CLASSES.iter().zip(&self.0) {
            println!("  {name}: {}", count.load(Relaxed));
        }
        self.0.iter().all(|count| count.load(Relaxed) > 0)
    }
}
