//! A chain file as long as one can be.
use crate::chain;

const SAMPLE: &[u8] = include_bytes!("../../../examples/ride.chain");

/// The sample ride, and its entries again from the first, until there are 682 records.
pub fn file() -> Vec<u8> {
    let sample = chain::read(SAMPLE).expect("a good file");
    let mut records = vec![chain::Record { ride: sample.recovered, ..chain::Record::default() }];
    records.extend(sample.entries.iter().cycle().take(chain::MOST - 1).copied());
    let last = records.len() - 1;
    for (k, record) in records.iter_mut().enumerate() {
        record.next = if k == last { 0 } else { k as u32 + 1 };
    }
    chain::file(&records)
}
