//! What the questions refuse, and what is just allowed.
use super::calls::Part;
use super::given::Given;
use crate::words::{
    COURSE_ALONG, COURSE_REACHED, EAST_PER_E7, HEADING, HEADING_KNOWN, LEN, LINE, LINE_LEN,
    RETRACE, SEGMENT, TOLERANCE, WINDOW, WINDOW_LEN,
};
use cittumay::{NUMBERS, REBUILD_WORDS, STRIDE, WORDS};

pub struct Fault {
    pub name: String,
    /// The question that says no; 0 where none does.
    pub question: u8,
    /// What a call has to be given, for the fault to lie in it.
    pub part: Part,
    pub spoil: Box<dyn Fn(&mut Given)>,
}

fn fault(
    question: u8,
    part: Part,
    name: impl Into<String>,
    spoil: impl Fn(&mut Given) + 'static,
) -> Fault {
    Fault { name: name.into(), question, part, spoil: Box::new(spoil) }
}

/// A place in the state: its name, its flag among the words, its east among the numbers.
const SPOTS: [(&str, usize, usize); 5] = [
    ("here", 11, 2),
    ("from", 13, 4),
    ("matched", 19, 6),
    ("course fix", 27, 10),
    ("start", 31, 12),
];

/// An angle in the state: its name, the words that say it is there, and its own.
const ANGLES: [(&str, &[usize], usize); 3] = [
    ("heading", &[HEADING_KNOWN], HEADING),
    ("guide's bearing", &[34], 42),
    ("guide's heading", &[34, 43], 44),
];

const FLAGS: [usize; 19] =
    [5, 8, 11, 13, 14, 19, 20, 23, 24, 27, 28, 29, 31, 32, 34, 36, 37, 38, 43];

/// The first f32 beyond 100,000,000, and the first that is not below 10^16.
const FAR: f32 = 100_000_000_f32.next_up();
const LONG: f32 = 1e16;

pub fn faults() -> Vec<Fault> {
    let mut all = sizes();
    all.extend(no_state());
    all.extend(counts());
    all.extend(numbers());
    all.extend(held());
    all.extend(places());
    all.extend(guides());
    all.extend(rebuilds());
    all.extend(thinnings());
    all
}

fn sizes() -> Vec<Fault> {
    let crumbs = |size: usize| {
        let name = format!("a crumb buffer of {size} numbers");
        fault(1, Part::Crumbs, name, move |g| g.crumbs.resize(size, -8.5))
    };
    let line = |size: usize| {
        let name = format!("a line of {size} numbers");
        fault(4, Part::Line, name, move |g| g.line.resize(size, -9.5))
    };
    let many = fault(4, Part::Points, "more points than the line holds", |g| {
        let more = g.line.len() / STRIDE + 1;
        g.lats.resize(more, 0);
        g.lons.resize(more, 0);
    });
    let mut all: Vec<Fault> = [0, 3 * 7, 3 * 8 + 1, 3 * 16 + 2, 3 * 4_097].map(crumbs).into();
    all.extend([3 * 8 + 1, 3 * 8 + 2, 3 * 2_049].map(line));
    all.push(many);
    all
}

/// Where a fault before has not taken the word away.
fn set(g: &mut Given, at: usize, to: u64) {
    g.words.get_mut(at).into_iter().for_each(|word| *word = to);
}

fn word(g: &Given, at: usize) -> u64 {
    g.words.get(at).copied().unwrap_or(0)
}

/// Slices that hold no state.
fn no_state() -> Vec<Fault> {
    let word = |name: &str, at: usize, to: u64| {
        fault(10, Part::State, format!("word {at} ({name}) {to}"), move |g| set(g, at, to))
    };
    let mut all = vec![
        fault(10, Part::Room, "words too short", |g| g.words.truncate(WORDS - 1)),
        fault(10, Part::Room, "numbers too short", |g| g.numbers.truncate(NUMBERS - 1)),
        fault(10, Part::Room, "no words", |g| g.words.clear()),
        fault(10, Part::Room, "no numbers", |g| g.numbers.clear()),
        word("mark", 0, 0),
        word("mark", 0, u64::MAX),
        word("line", 17, 3),
        word("pass", 30, 3),
        word("mode", 35, 4),
    ];
    all.extend(FLAGS.map(|at| word("flag", at, 2)));
    all.extend([3, 25].map(|at| word("u8", at, 1 << 8)));
    all.extend([15, 42, 44].map(|at| word("u16", at, 1 << 16)));
    all.extend([6, 7, 9, 10, 39, 40, 41].map(|at| word("u32 or i32", at, 1 << 32)));
    all
}

fn counts() -> Vec<Fault> {
    let state = |name: &str, spoil: fn(&mut Given)| fault(10, Part::State, name, spoil);
    vec![
        state("a window of 49", |g| set(g, WINDOW_LEN, 49)),
        state("a window of the largest size", |g| set(g, WINDOW_LEN, u64::MAX)),
        state("retrace 8", |g| set(g, RETRACE, 8)),
        state("retrace_len above len", |g| {
            set(g, RETRACE, 1);
            set(g, RETRACE + 1, word(g, LEN) + 1);
        }),
        state("breadcrumb followed at segment 0", |g| {
            set(g, LINE, 1);
            set(g, SEGMENT, 0);
        }),
        state("breadcrumb followed at its len", |g| {
            set(g, LINE, 1);
            set(g, SEGMENT, word(g, LEN));
        }),
        state("course followed at segment 0", |g| {
            set(g, LINE, 2);
            set(g, SEGMENT, 0);
        }),
        state("course followed at its len", |g| {
            set(g, LINE, 2);
            set(g, SEGMENT, word(g, LINE_LEN));
        }),
        fault(10, Part::Crumbs, "len above the capacity", |g| {
            set(g, LEN, g.crumbs.len() as u64 / 3 + 1)
        }),
        fault(10, Part::Crumbs, "len the largest", |g| set(g, LEN, u64::MAX)),
        fault(10, Part::Line, "line_len above the line", |g| {
            set(g, LINE_LEN, g.line.len() as u64 / 3 + 1)
        }),
        fault(10, Part::Line, "line_len the largest", |g| set(g, LINE_LEN, u64::MAX)),
    ]
}

/// Such a number in the state.
fn number(name: String, at: usize, to: f32, flags: &'static [usize]) -> Fault {
    fault(10, Part::State, format!("{name} {to:e}"), move |g| {
        flags.iter().for_each(|&flag| set(g, flag, 1));
        g.numbers.get_mut(at).into_iter().for_each(|number| *number = to);
    })
}

fn numbers() -> Vec<Fault> {
    let mut all = Vec::new();
    for far in [FAR, -FAR, f32::INFINITY, f32::NAN] {
        for (name, flag, at) in SPOTS {
            for side in [0, 1] {
                all.push(fault(
                    10,
                    Part::State,
                    format!("{name}, number {side} {far:e}"),
                    move |g| {
                        set(g, flag, 1);
                        g.numbers.get_mut(at + side).into_iter().for_each(|number| *number = far);
                    },
                ));
            }
        }
        for (place, at) in [(1, WINDOW), (1, WINDOW + 1), (48, WINDOW + 95)] {
            all.push(fault(10, Part::State, format!("window place {place} {far:e}"), move |g| {
                set(g, WINDOW_LEN, place);
                g.numbers.get_mut(at).into_iter().for_each(|number| *number = far);
            }));
        }
    }
    for along in [-1e-45, LONG, f32::INFINITY, f32::NAN] {
        all.push(number("course along".to_owned(), COURSE_ALONG, along, &[]));
        all.push(number("course reached".to_owned(), COURSE_REACHED, along, &[]));
    }
    for factor in [0.02_f32.next_up(), -0.02_f32.next_up(), f32::NAN] {
        all.push(number("east factor".to_owned(), EAST_PER_E7, factor, &[]));
    }
    for tolerance in [-1e-45, f32::NEG_INFINITY, f32::NAN] {
        all.push(number("tolerance".to_owned(), TOLERANCE, tolerance, &[]));
    }
    for (name, flags, at) in ANGLES {
        for angle in [4_096, 65_535] {
            all.push(fault(10, Part::State, format!("{name} {angle}"), move |g| {
                flags.iter().for_each(|&flag| set(g, flag, 1));
                set(g, at, angle);
            }));
        }
    }
    all
}

/// A crumb that is held, or a place of the line, beyond its bounds.
fn held() -> Vec<Fault> {
    let mut all = Vec::new();
    let bad = [(0, FAR), (0, f32::NAN), (1, -FAR), (2, -1.0), (2, LONG), (2, f32::NAN)];
    for (side, value) in bad {
        for last in [false, true] {
            let of =
                move |len: u64| side + if last { 3 * (len as usize).saturating_sub(1) } else { 0 };
            let which = if last { "last" } else { "first" };
            let name = format!("{which} crumb's number {side} {value:e}");
            all.push(fault(10, Part::Crumbs, name, move |g| {
                let at = of(word(g, LEN).min(4_096));
                g.crumbs.get_mut(at).into_iter().for_each(|number| *number = value);
            }));
            let name = format!("{which} place of the line, number {side} {value:e}");
            all.push(fault(10, Part::Line, name, move |g| {
                let at = of(word(g, LINE_LEN).min(2_048));
                g.line.get_mut(at).into_iter().for_each(|number| *number = value);
            }));
        }
    }
    all
}

fn places() -> Vec<Fault> {
    let mut all = Vec::new();
    for lat in [900_000_001, -900_000_001, i32::MAX, i32::MIN] {
        all.push(fault(2, Part::Place, format!("latitude {lat}"), move |g| g.lat = lat));
        for point in [0, 2] {
            let name = format!("latitude {lat} of point {point}");
            all.push(fault(2, Part::Points, name, move |g| g.lats[point] = lat));
        }
    }
    for lon in [1_800_000_001, -1_800_000_001, i32::MAX, i32::MIN] {
        all.push(fault(3, Part::Place, format!("longitude {lon}"), move |g| g.lon = lon));
        let name = format!("longitude {lon} of point 2");
        all.push(fault(3, Part::Points, name, move |g| g.lons[2] = lon));
    }
    all
}

/// Guides that `arrow` is given, and room for one.
fn guides() -> Vec<Fault> {
    let number = |name: &str, at: usize, to: u32| {
        fault(10, Part::Guide, format!("a guide's {name} {to}"), move |g| g.guide[at] = to)
    };
    let mut all = vec![
        fault(10, Part::Guide, "a guide too short", |g| g.guide.truncate(9)),
        fault(10, Part::Written, "no room for a guide", |g| g.written.truncate(9)),
        number("mode", 0, 4),
        number("bearing", 7, 4_096),
        number("bearing", 7, 65_536),
        number("heading", 9, 4_096),
        number("heading", 9, 65_536),
    ];
    all.extend([1, 2, 3, 8].map(|at| number("flag", at, 2)));
    all
}

/// Just beyond the globe, little-endian.
const LAT: [u8; 4] = 900_000_001_i32.to_le_bytes();
const LON: [u8; 4] = (-1_800_000_001_i32).to_le_bytes();

fn rebuilds() -> Vec<Fault> {
    let word = |at: usize, to: u64| {
        fault(10, Part::Rebuild, format!("rebuild's word {at} {to}"), move |g| {
            g.rebuild.get_mut(at).into_iter().for_each(|word| *word = to);
        })
    };
    let record = |question, name: &str, record: usize, at: usize, bytes: &'static [u8]| {
        fault(question, Part::File, name, move |g| g.record(record, at, bytes))
    };
    let short = |g: &mut Given| g.rebuild.truncate(REBUILD_WORDS - 1);
    vec![
        fault(10, Part::RebuildRoom, "rebuild too short", short),
        word(0, 0),
        word(1, 1 << 32),
        word(3, 2),
        word(4, 2),
        fault(6, Part::File, "an empty file", |g| g.file.clear()),
        fault(6, Part::File, "a part of a record", |g| g.file.push(0)),
        fault(6, Part::File, "683 records", |g| g.file.resize(683 * 96, 0)),
        record(7, "a next beyond the file", 1, 0, &[3, 0, 0, 0]),
        record(7, "a next far beyond the file", 2, 0, &[0, 0, 0, 128]),
        record(7, "a record reached twice", 2, 0, &[1, 0, 0, 0]),
        record(8, "kind 0", 1, 8, &[0]),
        record(8, "kind 8", 1, 8, &[8]),
        record(5, "five samples", 1, 9, &[5]),
        record(2, "a sample's latitude", 1, 20, &LAT),
        record(3, "a sample's longitude", 1, 24, &LON),
    ]
}

fn thinnings() -> Vec<Fault> {
    let size = |size: usize, held: usize| {
        let name = format!("{held} crumbs to thin in {size} numbers");
        fault(9, Part::Thinning, name, move |g| {
            g.thinned.resize(size, -6.5);
            g.held = held;
        })
    };
    let tolerance = |to: f32| {
        let name = format!("a tolerance of {to:e}");
        fault(9, Part::Thinning, name, move |g| g.tolerance = to.to_bits())
    };
    vec![
        size(0, 0),
        size(49, 16),
        size(50, 16),
        size(6, 2),
        size(3 * 4_097, 16),
        size(48, 17),
        size(48, usize::MAX),
        tolerance(-1e-45),
        tolerance(f32::NEG_INFINITY),
        tolerance(f32::NAN),
    ]
}

/// What is just allowed.
pub fn limits() -> Vec<Fault> {
    let thinning = |name: &str, spoil: fn(&mut Given)| fault(0, Part::Thinning, name, spoil);
    let state = |name: &str, spoil: fn(&mut Given)| fault(0, Part::State, name, spoil);
    vec![
        state("here 100,000,000", |g| {
            set(g, 11, 1);
            (g.numbers[2], g.numbers[3]) = (1e8, -1e8);
        }),
        state("a missing place with a NaN", |g| {
            set(g, 27, 0);
            g.numbers[10] = f32::NAN;
        }),
        state("course along below 10^16", |g| g.numbers[COURSE_ALONG] = LONG.next_down()),
        state("east factor 0.02", |g| g.numbers[EAST_PER_E7] = 0.02),
        state("tolerance -0", |g| g.numbers[TOLERANCE] = -0.0),
        state("tolerance infinity", |g| g.numbers[TOLERANCE] = f32::INFINITY),
        state("retrace 7", |g| {
            set(g, RETRACE, 7);
            set(g, RETRACE + 1, word(g, LEN));
        }),
        state("retrace 0 with any retrace_len", |g| {
            set(g, RETRACE, 0);
            set(g, RETRACE + 1, u64::MAX);
        }),
        state("not followed, any segment", |g| {
            set(g, LINE, 0);
            set(g, SEGMENT, u64::MAX);
        }),
        state("heading 4,095", |g| {
            set(g, HEADING_KNOWN, 1);
            set(g, HEADING, 4_095);
        }),
        fault(0, Part::Crumbs, "4,096 crumbs", |g| g.crumbs.resize(3 * 4_096, -8.5)),
        fault(0, Part::Line, "a line of 2,048", |g| g.line.resize(3 * 2_048, -9.5)),
        fault(0, Part::Place, "the globe's corner", |g| {
            (g.lat, g.lon) = (-900_000_000, -1_800_000_000);
        }),
        fault(0, Part::Points, "the globe's corners", |g| {
            (g.lats[0], g.lons[2]) = (900_000_000, 1_800_000_000);
        }),
        fault(0, Part::Points, "as many points as the line holds", |g| {
            g.lats.resize(8, 0);
            g.lons.resize(8, 0);
        }),
        fault(0, Part::File, "an unread sample beyond the globe", |g| g.record(1, 40, &[255; 12])),
        thinning("room for 3 crumbs", |g| {
            g.thinned.truncate(9);
            g.held = 3;
        }),
        thinning("room for 4,096 crumbs", |g| g.thinned.resize(3 * 4_096, -6.5)),
        thinning("no crumbs to thin", |g| g.held = 0),
        thinning("tolerance -0", |g| g.tolerance = (-0_f32).to_bits()),
        thinning("tolerance infinity", |g| g.tolerance = f32::INFINITY.to_bits()),
    ]
}
