//! The chain files on which `retell` is compared: good ones of many shapes, damaged ones, files of
//! the wrong size, and noise.
use crate::Place;
use crate::chain::{HALF_TURN, HEAD, LOCATED, MOST, POLE, RECORD, Record, SAMPLE, SAMPLES, TIMED};
use crate::chains::rider::{entries, entries_from};
use crate::random::Random;

/// The `k`-th file.
pub fn file(seed: u64, k: u64) -> Vec<u8> {
    let random = &mut Random::new(seed, k);
    match random.below(16) {
        0 => noise(random),
        1 => sized(random),
        2..7 => damaged(good(random), random),
        _ => good(random).bytes,
    }
}

/// A file of so many entries that begins at a place; some are damaged.
pub fn near(place: Place, count: usize, random: &mut Random) -> Vec<u8> {
    let recovered = recovered(random);
    let entries = entries_from(place, recovered, count, random);
    let laid = laid(recovered, &entries, random);
    if random.once_in(4) { damaged(laid, random) } else { laid.bytes }
}

/// A file, and where its records along the chain stand, record 0 first.
struct Laid {
    bytes: Vec<u8>,
    along: Vec<usize>,
}

impl Laid {
    fn record(&mut self, index: usize) -> &mut [u8] {
        &mut self.bytes[RECORD * index..][..RECORD]
    }

    fn count(&self) -> usize {
        self.bytes.len() / RECORD
    }
}

fn good(random: &mut Random) -> Laid {
    let recovered = recovered(random);
    let entries = entries(recovered, random);
    laid(recovered, &entries, random)
}

fn recovered(random: &mut Random) -> u32 {
    match random.below(12) {
        0 => 0,
        1 => u32::MAX,
        2 => random.word(),
        _ => 1 + random.below(1_000) as u32,
    }
}

// ---- where the records stand

/// Some records off the chain, any order, and noise where nobody reads, or none of these.
fn laid(recovered: u32, entries: &[Record], random: &mut Random) -> Laid {
    let room = (MOST - entries.len()).min(9);
    let spare = if random.below(3) == 0 { random.below(room) } else { 0 };
    let shuffled = random.below(2) == 0;
    let mut laid = lay(recovered, entries, spare, shuffled, random);
    if random.below(2) == 0 {
        litter(&mut laid, random);
    }
    laid
}

/// The entries in any order, with noise in some records off the chain and wherever nobody reads.
pub fn scattered(recovered: u32, entries: &[Record], random: &mut Random) -> Vec<u8> {
    let mut laid = lay(recovered, entries, 3, true, random);
    litter(&mut laid, random);
    laid.bytes
}

/// The entries in the chain's order or shuffled, with so many records off the chain behind or
/// between them.
fn lay(
    recovered: u32,
    entries: &[Record],
    spare: usize,
    shuffled: bool,
    random: &mut Random,
) -> Laid {
    let mut places: Vec<usize> = (1..=entries.len() + spare).collect();
    if shuffled {
        for k in (1..places.len()).rev() {
            places.swap(k, random.below(k + 1));
        }
    }
    let count = places.len() + 1;
    let mut along = vec![0];
    along.extend(&places[..entries.len()]);
    let mut laid = Laid { bytes: vec![0; RECORD * count], along };
    for &spare in &places[entries.len()..] {
        let next = random.below(count + 2) as u32;
        laid.record(spare).copy_from_slice(&noisy(next, random));
    }
    let first = Record { ride: recovered, ..Record::default() };
    for (k, record) in [first].iter().chain(entries).enumerate() {
        let next = laid.along.get(k + 1).copied().unwrap_or(0) as u32;
        let index = laid.along[k];
        laid.record(index).copy_from_slice(&Record { next, ..*record }.bytes());
    }
    laid
}

/// Fills what nobody reads: of record 0 all but next and ride, behind the counts of the others, in
/// their samples past count, and what a flag lacks.
fn litter(laid: &mut Laid, random: &mut Random) {
    let along = laid.along.clone();
    for &index in &along {
        let record = laid.record(index);
        if index == 0 {
            fill(&mut record[8..], random);
            continue;
        }
        let count = usize::from(record[9]);
        fill(&mut record[10..HEAD], random);
        for (k, sample) in record[HEAD..].chunks_mut(SAMPLE).enumerate() {
            if k >= count {
                fill(sample, random);
                continue;
            }
            sample[0] |= random.word() as u8 & !(LOCATED | TIMED);
            fill(&mut sample[1..4], random);
            if sample[0] & LOCATED == 0 {
                fill(&mut sample[4..12], random);
            }
            if sample[0] & TIMED == 0 {
                fill(&mut sample[12..], random);
            }
        }
    }
}

fn fill(bytes: &mut [u8], random: &mut Random) {
    bytes.fill_with(|| random.word() as u8);
}

// ---- what is wrong

/// Up to three things wrong, in one record or in several.
fn damaged(mut laid: Laid, random: &mut Random) -> Vec<u8> {
    let mut at = random.below(laid.along.len());
    for _ in 0..1 + random.below(3) {
        damage(&mut laid, at, random);
        if random.below(2) == 0 {
            at = random.below(laid.along.len());
        }
    }
    laid.bytes
}

/// One thing wrong in the record met after so many others.
fn damage(laid: &mut Laid, at: usize, random: &mut Random) {
    let (count, index) = (laid.count(), laid.along[at]);
    let next = match random.below(8) {
        0 => random.pick(&[count as u32, count as u32 + 1, 1 << 16, 1 << 31, u32::MAX]),
        1 => laid.along[random.below(at + 1)] as u32,
        _ => return spoil(laid.record(index), random),
    };
    laid.record(index)[..4].copy_from_slice(&next.to_le_bytes());
}

/// A kind, a count or a place that a question refuses; now and then where nobody reads it.
fn spoil(record: &mut [u8], random: &mut Random) {
    if random.below(3) == 0 {
        record[8] = random.pick(&[1, 3, 3, 4, 5, 6, 7]);
    }
    match random.below(6) {
        0 => record[8] = random.pick(&[0, 8, 9, 128, 255]),
        1 => record[9] = random.pick(&[5, 5, 6, 128, 255]),
        2 | 3 => (0..2).for_each(|_| spoil_place(record, random)),
        _ => spoil_place(record, random),
    }
}

fn spoil_place(record: &mut [u8], random: &mut Random) {
    let k = random.below(SAMPLES);
    if random.below(4) != 0 {
        record[9] = record[9].max(k as u8 + 1);
    }
    let sample = &mut record[HEAD + SAMPLE * k..][..SAMPLE];
    if random.below(8) != 0 {
        sample[0] |= LOCATED;
    }
    let (at, edge) = random.pick(&[(4, POLE), (8, HALF_TURN)]);
    let beyond = [edge + 1, -edge - 1, i32::MAX, i32::MIN, edge, -edge];
    sample[at..at + 4].copy_from_slice(&random.pick(&beyond).to_le_bytes());
}

/// A file of any size.
fn sized(random: &mut Random) -> Vec<u8> {
    let mut bytes = good(random).bytes;
    let size = bytes.len();
    let size = match random.below(8) {
        0 => 0,
        1 => 1 + random.below(RECORD - 1),
        2 => size - 1 - random.below(RECORD - 1),
        3 => size + 1 + random.below(RECORD - 1),
        4 => RECORD * MOST,
        5 => RECORD * (MOST + 1),
        6 => RECORD * (MOST + 2 + random.below(64)),
        7 if random.below(2) == 0 => 1 << (17 + random.below(4)),
        _ => random.below(RECORD * 2 * MOST),
    };
    bytes.resize(size, random.word() as u8);
    bytes
}

/// Records of noise, whose numbers are mostly such as a file may have.
fn noise(random: &mut Random) -> Vec<u8> {
    let count = if random.below(16) == 0 { 1 + random.below(MOST) } else { 1 + random.below(16) };
    let mut next = |k: usize| match random.below(4) {
        0 => random.below(count + 1) as u32,
        1 => 0,
        _ => noise_next(k, count),
    };
    let nexts: Vec<_> = (0..count).map(&mut next).collect();
    nexts.into_iter().flat_map(|next| noisy(next, random)).collect()
}

/// The record behind, 0 behind the last.
fn noise_next(k: usize, count: usize) -> u32 {
    ((k + 1) % count) as u32
}

fn noisy(next: u32, random: &mut Random) -> [u8; RECORD] {
    let mut bytes = [0; RECORD];
    fill(&mut bytes, random);
    bytes[..4].copy_from_slice(&next.to_le_bytes());
    bytes[4..8].copy_from_slice(&(random.below(4) as u32).to_le_bytes());
    if random.below(32) != 0 {
        bytes[8] = if random.below(4) == 0 { random.below(9) as u8 } else { 2 };
        let counts = if random.below(8) == 0 { 7 } else { 5 };
        bytes[9] = random.below(counts) as u8;
    }
    for sample in bytes[HEAD..].chunks_mut(SAMPLE) {
        let (lat, lon) = (random.within(POLE + 20_000_000), random.word() as i32);
        let lon = if random.below(16) == 0 { lon } else { lon % HALF_TURN };
        sample[4..8].copy_from_slice(&lat.to_le_bytes());
        sample[8..12].copy_from_slice(&lon.to_le_bytes());
        sample[15..20].fill(0);
    }
    bytes
}
