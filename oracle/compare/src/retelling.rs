//! What `retell` has to print of a chain file: the questions of `chain`, then the Rust's `Rebuild`
//! over a guide with 512 crumbs.
use crate::chain::{self, Chain, Record, Sample};
use crate::transcript::Patterns;
use std::fmt::Write;
use vana::ride::homing::rebuild::Rebuild;
use vana::ride::homing::rebuild::probe as rebuild;
use vana::ride::homing::{Crumb, Homing};
use vana::ride::log;

/// The guide's room.
pub const CRUMBS: usize = 512;

/// The whole output for a file.
pub fn retell(file: &[u8]) -> String {
    match chain::read(file) {
        Err(number) => refused(number),
        Ok(chain) => retold(&chain),
    }
}

pub fn refused(number: u8) -> String {
    format!("refused {number}\n")
}

/// "Rebuilds the whole chain with 512 crumbs without a settle."
fn retold(chain: &Chain) -> String {
    let mut crumbs = vec![Crumb::default(); CRUMBS];
    let mut homing = Homing::new(&mut crumbs);
    let upper = chain.entries.len();
    let mut rebuild = Rebuild::new(chain.recovered, upper);
    rebuild.step(&mut homing, upper, upper, |slot| chain.entries.get(slot).and_then(entry));
    tell(&homing, &rebuild)
}

/// What is printed of a guide and its rebuild.
pub fn tell(homing: &Homing, rebuild: &Rebuild) -> String {
    let state = rebuild::state(rebuild);
    told(homing.crumbs(), state.clock_ms, state.decided)
}

pub fn told(crumbs: &[Crumb], clock_ms: u64, decided: bool) -> String {
    let stage = if decided { "decided" } else { "pending" };
    let mut text = format!("crumbs {} clock {clock_ms} stage {stage}\n", crumbs.len());
    for &Crumb { east, north, along } in crumbs {
        let crumb = Patterns([east, north, along].map(f32::to_bits));
        writeln!(text, "{crumb}").expect("a string takes any text");
    }
    text
}

/// The Rust's entry of a record; none where its kind is no kind. Of an entry the chain file has the
/// ride, the kind, the count and the samples' places and times; `Rebuild` reads nothing else.
pub fn entry(record: &Record) -> Option<log::Entry> {
    let entry = log::Entry::event(kind(record.kind)?, log::Source::Live, record.ride, 0, 0);
    Some(log::Entry { count: record.count, samples: record.samples.map(sample), ..entry })
}

fn kind(number: u8) -> Option<log::Kind> {
    use log::Kind::*;
    let kinds = [Start, Samples, Pause, Resume, Finish, Recovered, Full];
    kinds.into_iter().find(|kind| *kind as u8 == number)
}

fn sample(Sample { place, utc_ms }: Sample) -> log::Sample {
    log::Sample { location_e7: place, utc_ms, ..log::Sample::default() }
}
