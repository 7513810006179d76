//! The chain file of document 01, section "Entry", and the questions put to it: its records as
//! values, written and read.
use crate::Place;

/// The bytes of a record, those before its samples, and those of a sample.
pub const RECORD: usize = 96;
pub const HEAD: usize = 16;
pub const SAMPLE: usize = 20;
/// The most records of a file.
pub const MOST: usize = 682;
/// The samples of an entry.
pub const SAMPLES: usize = 4;
pub const POLE: i32 = 900_000_000;
pub const HALF_TURN: i32 = 1_800_000_000;

/// Bits of a sample's flags.
pub const LOCATED: u8 = 1;
pub const TIMED: u8 = 2;

#[derive(Clone, Copy, Debug, Default, PartialEq)]
pub struct Sample {
    pub place: Option<Place>,
    pub utc_ms: Option<u64>,
}

/// A record as the format has it; nothing in it need be right.
#[derive(Clone, Copy, Debug, Default, PartialEq)]
pub struct Record {
    pub next: u32,
    pub ride: u32,
    pub kind: u8,
    pub count: u8,
    pub samples: [Sample; SAMPLES],
}

/// What a file tells, once no question says no.
#[derive(Clone, Debug, PartialEq)]
pub struct Chain {
    pub recovered: u32,
    /// The records along the chain, without record 0. Slot k holds the k-th of them, from 0.
    pub entries: Vec<Record>,
}

/// A record with all that anyone reads, whatever its flags and its count say.
#[derive(Clone, Copy, Debug, Default, PartialEq)]
pub struct Raw {
    pub next: u32,
    pub ride: u32,
    pub kind: u8,
    pub count: u8,
    pub samples: [RawSample; SAMPLES],
}

#[derive(Clone, Copy, Debug, Default, PartialEq)]
pub struct RawSample {
    pub flags: u8,
    pub place: Place,
    pub utc_ms: u64,
}

impl Raw {
    /// The record's bytes. Those that nobody reads are 0.
    pub fn bytes(&self) -> [u8; RECORD] {
        let mut bytes = [0; RECORD];
        bytes[..4].copy_from_slice(&self.next.to_le_bytes());
        bytes[4..8].copy_from_slice(&self.ride.to_le_bytes());
        (bytes[8], bytes[9]) = (self.kind, self.count);
        for (sample, to) in self.samples.iter().zip(bytes[HEAD..].chunks_mut(SAMPLE)) {
            to[0] = sample.flags;
            to[4..8].copy_from_slice(&sample.place.0.to_le_bytes());
            to[8..12].copy_from_slice(&sample.place.1.to_le_bytes());
            to[12..20].copy_from_slice(&sample.utc_ms.to_le_bytes());
        }
        bytes
    }

    pub fn read(bytes: &[u8; RECORD]) -> Self {
        let mut samples = [RawSample::default(); SAMPLES];
        for (sample, from) in samples.iter_mut().zip(bytes[HEAD..].chunks(SAMPLE)) {
            let place = (u32_at(from, 4) as i32, u32_at(from, 8) as i32);
            *sample = RawSample { flags: from[0], place, utc_ms: u64_at(from, 12) };
        }
        let (next, ride) = (u32_at(bytes, 0), u32_at(bytes, 4));
        Self { next, ride, kind: bytes[8], count: bytes[9], samples }
    }
}

impl From<&Sample> for RawSample {
    fn from(sample: &Sample) -> Self {
        let located = if sample.place.is_some() { LOCATED } else { 0 };
        let timed = if sample.utc_ms.is_some() { TIMED } else { 0 };
        let (place, utc_ms) = (sample.place.unwrap_or_default(), sample.utc_ms.unwrap_or_default());
        Self { flags: located | timed, place, utc_ms }
    }
}

impl From<&Record> for Raw {
    fn from(Record { next, ride, kind, count, samples }: &Record) -> Self {
        let samples = samples.each_ref().map(RawSample::from);
        Self { next: *next, ride: *ride, kind: *kind, count: *count, samples }
    }
}

impl Record {
    /// The record's bytes. Those that nobody reads are 0.
    pub fn bytes(&self) -> [u8; RECORD] {
        Raw::from(self).bytes()
    }

    /// "Samples past count aren't read, nor the places or UTC a flag lacks."
    pub fn read(bytes: &[u8; RECORD]) -> Self {
        let Raw { next, ride, kind, count, samples: raw } = Raw::read(bytes);
        let mut samples = [Sample::default(); SAMPLES];
        let used = samples.iter_mut().take(count.into());
        for (sample, RawSample { flags, place, utc_ms }) in used.zip(raw) {
            sample.place = (flags & LOCATED != 0).then_some(place);
            sample.utc_ms = (flags & TIMED != 0).then_some(utc_ms);
        }
        Self { next, ride, kind, count, samples }
    }

    /// The samples that are used.
    pub fn used(&self) -> &[Sample] {
        &self.samples[..SAMPLES.min(self.count.into())]
    }

    /// "Entries in order, kind, count, places, the last two for every kind of entry."
    pub fn asked(&self) -> Result<(), u8> {
        refuse(8, !(1..=7).contains(&self.kind))?;
        refuse(5, self.count > 4)?;
        self.used().iter().filter_map(|sample| sample.place).try_for_each(|(lat, lon)| {
            refuse(2, !(-POLE..=POLE).contains(&lat))?;
            refuse(3, !(-HALF_TURN..=HALF_TURN).contains(&lon))
        })
    }
}

fn u32_at(bytes: &[u8], at: usize) -> u32 {
    (0..4).map(|k| u32::from(bytes[at + k]) << (8 * k)).sum()
}

fn u64_at(bytes: &[u8], at: usize) -> u64 {
    (0..8).map(|k| u64::from(bytes[at + k]) << (8 * k)).sum()
}

fn refuse(number: u8, when: bool) -> Result<(), u8> {
    if when { Err(number) } else { Ok(()) }
}

/// What a file tells, or the number of the first question that says no: "the file's chain is judged
/// whole, then its entries in order".
pub fn read(file: &[u8]) -> Result<Chain, u8> {
    let records = records(file)?;
    let entries: Vec<_> = along(records)?.into_iter().map(|k| Record::read(&records[k])).collect();
    entries.iter().try_for_each(Record::asked)?;
    Ok(Chain { recovered: u32_at(&records[0], 4), entries })
}

/// "1 to 682 whole records?"
pub fn records(file: &[u8]) -> Result<&[[u8; RECORD]], u8> {
    let (records, rest) = file.as_chunks();
    refuse(6, !rest.is_empty() || !(1..=MOST).contains(&records.len()))?;
    Ok(records)
}

/// The records met from record 0 on: "Every next met below the record count, none reached twice?"
pub fn along(records: &[[u8; RECORD]]) -> Result<Vec<usize>, u8> {
    let mut met = vec![false; records.len()];
    let (mut along, mut at) = (Vec::new(), 0);
    loop {
        let next = u32_at(&records[at], 0) as usize;
        if next == 0 {
            return Ok(along);
        }
        refuse(7, next >= records.len() || met[next])?;
        met[next] = true;
        along.push(next);
        at = next;
    }
}

/// The file of records in this order, as they stand.
pub fn file(records: &[Record]) -> Vec<u8> {
    records.iter().flat_map(Record::bytes).collect()
}

/// Record 0 and the entries behind it, each leading to the next.
pub fn linked(recovered: u32, entries: &[Record]) -> Vec<Record> {
    let first = Record { ride: recovered, ..Record::default() };
    let mut records: Vec<_> = [first].into_iter().chain(entries.iter().copied()).collect();
    let last = records.len() - 1;
    for (k, record) in records.iter_mut().enumerate() {
        record.next = if k < last { k as u32 + 1 } else { 0 };
    }
    records
}
