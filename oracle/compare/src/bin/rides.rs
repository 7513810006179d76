//! Writes sample chain files, good and damaged, each beside what `retell` has to print of it. Fails where
//! a file is not what its name says.
use compare::chain::{self, HALF_TURN, POLE, RECORD, Record, SAMPLES, Sample};
use compare::chains::files::scattered;
use compare::chains::seen::Seen;
use compare::options::{Words, program};
use compare::random::Random;
use compare::retelling::retell;
use std::fs;
use std::path::Path;
use std::process::ExitCode;

/// Metres east and north of where the road begins.
type Spot = (f64, f64);

/// 1e-7 degrees in a metre north, and in one east at the latitude of the road.
const NORTH_E7: f64 = 89.93;
const EAST_E7: f64 = 176.86;
const BASE: (f64, f64) = (594_370_000.0, 247_450_000.0);

/// Metres and milliseconds between two fixes of the long ride.
const STEP_M: f64 = 30.0;
const STEP_MS: u64 = 5_000;
const MORNING_MS: u64 = 1_789_200_000_000;

const START: u8 = 1;
const BATCH: u8 = 2;
const PAUSE: u8 = 3;
const RESUME: u8 = 4;
const FINISH: u8 = 5;
const RECOVERED: u8 = 6;

const USAGE: &str = "\
usage: rides FOLDER
Writes sample chain files, good and damaged, each beside what `retell` has to print of it.
";

fn main() -> ExitCode {
    program(USAGE, Words::path, |folder| write_all(&folder).map(|()| true))
}

fn write_all(folder: &Path) -> Result<(), String> {
    let bad = folder.join("damaged");
    fs::create_dir_all(&bad).map_err(|error| format!("{}: {error}", bad.display()))?;
    let as_named = |name, holds| {
        if holds { Ok(()) } else { Err(format!("{name} is not what its name says")) }
    };
    for (name, file, holds) in good() {
        as_named(name, holds(&Seen::of(&file)))?;
        write(folder, name, &file)?;
    }
    for (name, number, file) in damaged() {
        as_named(name, retell(&file) == format!("refused {number}\n"))?;
        write(&bad, name, &file)?;
    }
    Ok(())
}

fn write(folder: &Path, name: &str, file: &[u8]) -> Result<(), String> {
    let put = |end: &str, bytes: &[u8]| {
        let path = folder.join(format!("{name}.{end}"));
        fs::write(&path, bytes).map_err(|error| format!("{}: {error}", path.display()))
    };
    put("chain", file)?;
    put("expected", retell(file).as_bytes())
}

// ---- good files

/// A name, a file, and what has to hold of it.
type Good = (&'static str, Vec<u8>, fn(&Seen) -> bool);

fn good() -> Vec<Good> {
    let placed = Sample { place: Some((0, 0)), utc_ms: None };
    let carries_on = two_rides(1_800_000);
    let shuffled = scattered(5, &carries_on, &mut Random::new(1, 0));
    vec![
        ("ride", file(7, &long_ride()), |seen| seen.carried_on() && seen.thinned_before()),
        ("two-records", file(5, &entries(5, &[placed; 2])), |seen| {
            seen.text == "crumbs 1 clock 2000 stage pending\n00000000 00000000 00000000\n"
        }),
        ("no-entries", file(5, &[]), |seen| seen.text == "crumbs 0 clock 0 stage pending\n"),
        ("pending", file(5, &carries_on[..4]), |seen| seen.pending() && seen.holds(|len| len > 2)),
        ("carries-on", file(5, &carries_on), |seen| seen.carried_on()),
        ("reset", file(5, &two_rides(1_800_001)), |seen| {
            seen.decision().is_some() && !seen.carried_on()
        }),
        ("shuffled", shuffled, |seen| {
            seen.text == retell(&file(5, &two_rides(1_800_000))) && !seen.order.is_sorted()
        }),
        ("antimeridian", file(5, &entries(5, &across_the_antimeridian())), |seen| {
            seen.east(|east| east.abs() > i64::from(HALF_TURN))
        }),
    ]
}

fn file(recovered: u32, entries: &[Record]) -> Vec<u8> {
    chain::file(&chain::linked(recovered, entries))
}

fn event(kind: u8, ride: u32) -> Record {
    Record { ride, kind, ..Record::default() }
}

/// Samples entries, four samples each but for the last.
fn entries(ride: u32, samples: &[Sample]) -> Vec<Record> {
    let entry = |used: &[Sample]| {
        let mut samples = [Sample::default(); SAMPLES];
        samples[..used.len()].copy_from_slice(used);
        Record { next: 0, ride, kind: BATCH, count: used.len() as u8, samples }
    };
    samples.chunks(SAMPLES).map(entry).collect()
}

/// The older ride's end, the recovered ride, and the ride behind the battery swap.
fn long_ride() -> Vec<Record> {
    let random = &mut Random::new(2, 0);
    let road = road((0.0, 0.0), (0.6, 0.8), 1_000, random);
    let side = road_from(&road, 300, 50, random);
    let mut rider = Rider { random, utc_ms: MORNING_MS - 14 * 3_600_000 };
    let older = rider.ride(&back(&road[..10]));
    rider.utc_ms = MORNING_MS;
    let out =
        [&road[..300], &side, &back(&side), &road[300..800], &back(&road[650..800]), &road[650..]]
            .concat();
    let mut recovered = rider.ride(&out);
    // The receiver has no time yet at the start, and loses the place in a tunnel.
    recovered[..3].iter_mut().for_each(|sample| sample.utc_ms = None);
    recovered[500..520].iter_mut().for_each(|sample| sample.place = None);
    let (before, after) = recovered.split_at(700);
    rider.utc_ms += 11 * 60_000;
    let home = rider.ride(&back(&road));
    let mut log = entries(6, &older);
    log.extend([event(FINISH, 6), event(START, 7)]);
    log.extend(entries(7, before));
    log.extend([event(PAUSE, 7), event(RESUME, 7)]);
    log.extend(entries(7, after));
    log.extend([event(RECOVERED, 7), event(START, 8)]);
    log.extend(entries(8, &home));
    log.push(event(FINISH, 8));
    log
}

struct Rider<'a> {
    random: &'a mut Random,
    utc_ms: u64,
}

impl Rider<'_> {
    /// A sample at each spot, within a metre and a half of it.
    fn ride(&mut self, spots: &[Spot]) -> Vec<Sample> {
        let sample = |&(east, north): &Spot| {
            let mut about = |metres: f64| metres + f64::from(self.random.within(15)) / 10.0;
            let place = place((about(east), about(north)));
            self.utc_ms += STEP_MS;
            Sample { place: Some(place), utc_ms: Some(self.utc_ms) }
        };
        spots.iter().map(sample).collect()
    }
}

fn place((east, north): Spot) -> (i32, i32) {
    let (lat, lon) = (BASE.0 + north * NORTH_E7, BASE.1 + east * EAST_E7);
    (lat.round() as i32, lon.round() as i32)
}

/// A winding road from a spot, first that way.
fn road(from: Spot, way: Spot, spots: usize, random: &mut Random) -> Vec<Spot> {
    let (mut at, mut way, mut bend) = (from, way, 0.0);
    let mut next = || {
        if random.below(6) == 0 {
            bend = f64::from(random.within(450)) / 1_000.0;
        }
        let turned = (way.0 - bend * way.1, way.1 + bend * way.0);
        let size = (turned.0 * turned.0 + turned.1 * turned.1).sqrt();
        way = (turned.0 / size, turned.1 / size);
        at = (at.0 + STEP_M * way.0, at.1 + STEP_M * way.1);
        at
    };
    (0..spots).map(|_| next()).collect()
}

/// A road that leaves another at its `k`-th spot.
fn road_from(other: &[Spot], k: usize, spots: usize, random: &mut Random) -> Vec<Spot> {
    road(other[k], (0.8, -0.6), spots, random)
}

fn back(spots: &[Spot]) -> Vec<Spot> {
    spots.iter().rev().copied().collect()
}

/// A recovered ride 5 and ride 6, whose first fix comes so long after ride 5's last.
fn two_rides(later_ms: u64) -> Vec<Record> {
    let spots = |turn: f64| {
        let spot = move |k| (40.0 * f64::from(k), turn * f64::from(k * k));
        (0..8).map(spot).collect::<Vec<_>>()
    };
    let random = &mut Random::new(3, 0);
    let mut rider = Rider { random, utc_ms: MORNING_MS };
    let first = rider.ride(&spots(5.0));
    rider.utc_ms += later_ms - STEP_MS;
    let second = rider.ride(&spots(-5.0));
    let mut log = vec![event(START, 5)];
    log.extend(entries(5, &first));
    log.extend([event(RECOVERED, 5), event(START, 6)]);
    log.extend(entries(6, &second));
    log
}

/// East over the antimeridian and on.
fn across_the_antimeridian() -> Vec<Sample> {
    let sample = |k: i32| {
        let lon = HALF_TURN - 7_000 + 2_000 * k;
        let lon = if lon > HALF_TURN { lon - HALF_TURN - HALF_TURN } else { lon };
        Sample { place: Some((-180_000_000 + 300 * k * k, lon)), utc_ms: None }
    };
    (0..8).map(sample).collect()
}

// ---- damaged files

/// Record 0, a Start, a Samples, a Pause and a Samples entry with places, and a Finish.
fn whole() -> Vec<Record> {
    let ride = two_rides(1_800_000);
    let pause = Record { kind: PAUSE, count: 1, ..ride[2] };
    chain::linked(5, &[ride[0], ride[1], pause, ride[2], Record { kind: FINISH, ..pause }])
}

/// A name, the number of the refusal, and the file.
fn damaged() -> Vec<(&'static str, u8, Vec<u8>)> {
    let whole = whole();
    let bytes = chain::file(&whole);
    let filled = |records| vec![0; RECORD * records];
    let sized = vec![
        ("empty", 6, Vec::new()),
        ("half-a-record", 6, bytes[..RECORD / 2].to_vec()),
        ("five-records-and-a-half", 6, bytes[..RECORD * 11 / 2].to_vec()),
        ("683-records", 6, filled(683)),
    ];
    let changed = DAMAGES.iter().map(|(name, number, damage)| {
        let mut records = whole.clone();
        damage(&mut records);
        (*name, *number, chain::file(&records))
    });
    sized.into_iter().chain(changed).collect()
}

/// A name, the number of the refusal, and what is done to the records.
type Damage = (&'static str, u8, fn(&mut [Record]));

const DAMAGES: [Damage; 22] = [
    ("next-past-the-end", 7, |r| r[5].next = 6),
    ("next-far-past-the-end", 7, |r| r[2].next = u32::MAX),
    ("record-met-twice", 7, |r| r[5].next = 2),
    ("record-after-itself", 7, |r| r[3].next = 3),
    ("kind-0", 8, |r| r[2].kind = 0),
    ("kind-8", 8, |r| r[2].kind = 8),
    ("count-5", 5, |r| r[2].count = 5),
    ("count-5-on-pause", 5, |r| r[3].count = 5),
    ("latitude-900000001", 2, |r| put(&mut r[2], 1, (POLE + 1, 0))),
    ("latitude-on-pause", 2, |r| put(&mut r[3], 0, (-POLE - 1, 0))),
    ("longitude-1800000001", 3, |r| put(&mut r[2], 1, (0, HALF_TURN + 1))),
    ("longitude-on-finish", 3, |r| put(&mut r[5], 0, (0, -HALF_TURN - 1))),
    // The chain is judged before the entries.
    ("kind-8-then-past-the-end", 7, |r| (r[1].kind, r[5].next) = (8, 6)),
    // The entries are judged in the chain's order.
    ("latitude-then-kind-8", 2, |r| {
        put(&mut r[2], 3, (POLE + 1, 0));
        r[4].kind = 8;
    }),
    ("kind-8-then-latitude", 8, |r| {
        r[2].kind = 8;
        put(&mut r[4], 0, (POLE + 1, 0));
    }),
    ("count-5-then-kind-8", 5, |r| (r[2].count, r[4].kind) = (5, 8)),
    ("longitude-then-count-5", 3, |r| {
        put(&mut r[2], 0, (0, HALF_TURN + 1));
        r[3].count = 5;
    }),
    // An entry is asked about its kind, its count, its places.
    ("kind-8-and-count-5", 8, |r| (r[2].kind, r[2].count) = (8, 5)),
    ("count-5-and-latitude", 5, |r| {
        put(&mut r[2], 0, (POLE + 1, 0));
        r[2].count = 5;
    }),
    ("latitude-and-longitude", 2, |r| put(&mut r[2], 2, (POLE + 1, HALF_TURN + 1))),
    ("longitude-then-latitude", 3, |r| {
        put(&mut r[2], 0, (0, HALF_TURN + 1));
        put(&mut r[2], 1, (POLE + 1, 0));
    }),
    ("latitude-then-longitude", 2, |r| {
        put(&mut r[2], 0, (POLE + 1, 0));
        put(&mut r[2], 1, (0, HALF_TURN + 1));
    }),
];

fn put(record: &mut Record, k: usize, place: (i32, i32)) {
    record.samples[k].place = Some(place);
}
