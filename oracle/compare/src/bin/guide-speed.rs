//! The time of a guide's calls through the door, and of the Rust's on the same rides.
use compare::guide::Guide;
use compare::measure::rows::{Measured, Options, Results, Row, Table, measure};
use compare::measure::{Times, alternate, microseconds, nanoseconds, plot};
use compare::options::{Words, program, unknown};
use compare::retelling::{self, CRUMBS};
use compare::script::Call;
use compare::transcript::{Answer, Answers};
use compare::trials::{self, HELD, Kept, POINTS, Proved, Rust, Trial};
use compare::{Place, chain, longest};
use std::array::from_fn;
use std::fs;
use std::hint::black_box;
use std::path::PathBuf;
use std::process::ExitCode;
use vana::ride::homing::{Crumb, Homing, rebuild};

/// A longitude that question 3, the last put to a fix, says no to.
const NO_LONGITUDE: Place = (0, 1_800_000_001);
/// The points of the course over which question 10's pass is measured.
const ASKED: usize = 2_048;

const USAGE: &str = "\
usage: guide-speed [--runs N] [--markdown] [--plot PATH] [--list] [ROW..]
Measures the time of a guide's calls through the door and of a rebuild, and the Rust's: the median of the runs, the lowest and the highest.
  --runs N      so many runs of each side, in turn; 5 or more (25)
  --markdown    prints Markdown tables
  --plot PATH   draws how the time grows with the line, as SVG; measures the rows for it too
  --list        only prints the names of the rows
  ROW..         only these rows, and those whose names go on with a hyphen
";

fn main() -> ExitCode {
    program(USAGE, read, |(options, plot)| {
        let Some(results) = measure(tables(), &options)? else { return Ok(false) };
        match plot {
            Some(path) if !options.list => draw(&results, &path).map(|()| true),
            _ => Ok(true),
        }
    })
}

fn read(words: &mut Words) -> Result<(Options, Option<PathBuf>), String> {
    let mut plot = None;
    let mut options = Options::read_with(words, &tables(), |word, words| match word {
        "--plot" => words.path().map(|path| plot = Some(path)),
        _ => unknown(word),
    })?;
    if plot.is_some() && !options.chosen.is_empty() {
        options.chosen.extend(panels().into_iter().flat_map(|panel| panel.rows()));
    }
    Ok((options, plot))
}

fn tables() -> Vec<Table> {
    let head = |first, proved, rust, questions| {
        let last = ["share", "without them / Rust"];
        [&[first, proved, rust, "proved / Rust", questions], &last[..]].concat()
    };
    vec![
        Table {
            name: "observe",
            head: head("`observe`", "proved, ns", "Rust, ns", "questions, ns"),
            rows: trials::timed().into_iter().map(observing).collect(),
        },
        Table {
            name: "rebuild",
            head: head("rebuild", "proved, µs", "Rust, µs", "questions, µs"),
            rows: vec![Row::new("rebuild", "682 records", rebuilding)],
        },
        Table {
            name: "question-10",
            head: vec![
                "question 10",
                "asked with the course, ns",
                "without it, ns",
                "the pass, ns",
                "plain test, ns",
                "pass / plain",
            ],
            rows: vec![Row::new("question-10", "2,048 points, 6,144 numbers", asking)],
        },
    ]
}

/// The cells of a row in which the questions are told apart.
fn with_questions([ours, theirs, asked]: &[Times; 3]) -> Measured {
    let cells = vec![
        ours.text(0),
        theirs.text(0),
        format!("{:.2}", ours.over(theirs)),
        asked.text(0),
        format!("{:.0} %", 100.0 * asked.over(ours)),
        format!("{:.2}", ours.minus(asked).over(theirs)),
    ];
    Measured { cells, proved: ours.median(), rust: theirs.median() }
}

// ---- fixes

fn observing(trial: Trial) -> Row {
    let (name, title) = (trial.name.clone(), trial.title.clone());
    Row::new(name, title, move |runs| {
        let (mut proved, mut rust) = (Proved::ridden(&trial.script), Rust::ridden(&trial.script));
        let held = proved.again().answers().len;
        assert!(trial.held.is_none_or(|told| told == held), "{}: {held} held", trial.title);
        if told(&mut proved, &trial.fixes) != told(&mut rust, &trial.fixes) {
            return None;
        }
        let refused = refused(trial.fixes.len());
        let mut asked = Proved::ridden(&trial.script);
        Some(with_questions(&alternate(
            runs,
            [
                &mut || per_call(&mut proved, &trial.fixes),
                &mut || per_call(&mut rust, &trial.fixes),
                &mut || per_call(&mut asked, &refused),
            ],
        )))
    })
}

/// What a guide answers behind some calls.
fn told(kept: &mut impl Kept, calls: &[Call]) -> Answers {
    let mut guide = kept.again();
    calls.iter().for_each(|call| drop(guide.perform(call)));
    guide.answers()
}

/// So many fixes that are asked everything and refused.
fn refused(fixes: usize) -> Vec<Call> {
    vec![Call::Observe(Some(NO_LONGITUDE), 0); fixes]
}

/// Nanoseconds.
fn per_call(kept: &mut impl Kept, calls: &[Call]) -> f64 {
    let mut guide = kept.again();
    let all = nanoseconds(|| {
        for call in black_box(calls) {
            black_box(performed(&mut guide, call));
        }
    });
    all / calls.len() as f64
}

/// Makes both sides pay a call.
#[inline(never)]
fn performed(guide: &mut impl Guide, call: &Call) -> Answer {
    guide.perform(call)
}

// ---- question 10

/// Its pass over the course: what a refused fix takes more with the course than without it.
fn asking(runs: usize) -> Option<Measured> {
    let mut with = Proved::ridden(&trials::placed(ASKED));
    let mut without = Proved::ridden(&trials::unplaced(ASKED));
    let line = with.again().course().expect("a guide's own state").to_vec();
    let refused = refused(trials::FIXES);
    let [with, without, plain] = alternate(
        runs,
        [
            &mut || per_call(&mut with, &refused),
            &mut || per_call(&mut without, &refused),
            &mut || tested(&line),
        ],
    );
    let pass = with.minus(&without);
    let texts = [&with, &without, &pass, &plain].map(|times| times.text(0));
    let cells = texts.into_iter().chain([format!("{:.2}", pass.over(&plain))]).collect();
    Some(Measured { cells, proved: pass.median(), rust: plain.median() })
}

/// Nanoseconds of the plain test.
fn tested(line: &[f32]) -> f64 {
    let all = nanoseconds(|| {
        for _ in 0..trials::FIXES {
            assert!(within(black_box(line), black_box(&LOWEST), black_box(&HIGHEST)));
        }
    });
    all / trials::FIXES as f64
}

/// As many numbers as a register holds. Three of them are four points: east, north, along.
type Four<T> = [T; 4];

const LOWEST: [Four<f32>; 3] = bounds(-1e8, 0.0);
const HIGHEST: [Four<f32>; 3] = bounds(1e8, 1e16);

const fn bounds(place: f32, along: f32) -> [Four<f32>; 3] {
    [[place, place, along, place], [place, along, place, place], [along, place, place, along]]
}

/// A plain test of each number of a line against its bounds, to the end whatever it finds. The bounds come
/// from outside, so that the compiler tests all numbers alike, four at a time.
#[inline(never)]
fn within(line: &[f32], lowest: &[Four<f32>; 3], highest: &[Four<f32>; 3]) -> bool {
    let (fours, rest) = line.as_chunks::<4>();
    let (points, more) = fours.as_chunks::<3>();
    let mut beyond = [0; 4];
    for numbers in points {
        let [a, b, c] = from_fn(|part| outside(&numbers[part], &lowest[part], &highest[part]));
        beyond = from_fn(|k| beyond[k] | a[k] | b[k] | c[k]);
    }
    rest.is_empty() && more.is_empty() && beyond == [0; 4]
}

fn outside(numbers: &Four<f32>, lowest: &Four<f32>, highest: &Four<f32>) -> Four<u32> {
    from_fn(|k| {
        let within = (lowest[k] <= numbers[k]) & (numbers[k] <= highest[k]);
        u32::from(!within).wrapping_neg()
    })
}

// ---- a rebuild

fn rebuilding(runs: usize) -> Option<Measured> {
    let file = longest::file();
    let chain = chain::read(&file).expect("a good file");
    let upper = chain.entries.len();
    Some(with_questions(&alternate(
        runs,
        [
            &mut || rebuilt(&file, chain.recovered, upper, upper),
            &mut || rebuilt_by_rust(&chain),
            &mut || rebuilt(&file, chain.recovered, upper, 0),
        ],
    )))
}

/// Microseconds of a whole rebuild, or, with no budget, of its questions.
fn rebuilt(file: &[u8], recovered: u32, upper: usize, budget: usize) -> f64 {
    let mut crumbs = vec![0.0; cittumay::STRIDE * CRUMBS];
    let mut guide = cittumay::Homing::new(&mut crumbs).expect("512 crumbs");
    let mut rebuild = cittumay::Rebuild::new(recovered, upper).expect("room for a rebuild");
    microseconds(|| {
        black_box(rebuild.step(&mut guide, file, upper, budget)).expect("a good file");
    })
}

fn rebuilt_by_rust(chain: &chain::Chain) -> f64 {
    let upper = chain.entries.len();
    let mut crumbs = vec![Crumb::default(); CRUMBS];
    let mut guide = Homing::new(&mut crumbs);
    let mut rebuild = rebuild::Rebuild::new(chain.recovered, upper);
    let read = |slot| chain.entries.get(slot).and_then(retelling::entry);
    microseconds(|| {
        black_box(rebuild.step(&mut guide, upper, upper, read));
    })
}

// ---- the growth

/// A panel of the plot: rows by what is done, at growing sizes of the line.
struct Growth {
    title: &'static str,
    sizes: [usize; 3],
    /// What is done, and how the names of its rows begin.
    done: [(&'static str, &'static str); 2],
}

fn panels() -> [Growth; 2] {
    [
        Growth {
            title: "crumbs held",
            sizes: HELD,
            done: [("recording", "recording"), ("following home", "homing")],
        },
        Growth {
            title: "points of the course",
            sizes: POINTS,
            done: [("recording, near it", "near"), ("following it", "course")],
        },
    ]
}

impl Growth {
    fn rows(&self) -> Vec<String> {
        let row = |begin, size| format!("{begin}-{size}");
        let begins = self.done.iter().map(|(_, begin)| begin);
        begins.flat_map(|begin| self.sizes.map(|size| row(begin, size))).collect()
    }

    fn panel(&self, results: &Results) -> plot::Panel {
        let curve = |begin: &str, side: fn(&Measured) -> f64| {
            let point = |size| (size, side(&results[&format!("{begin}-{size}")]));
            self.sizes.map(point).to_vec()
        };
        let pair = |(label, begin): &(&'static str, &str)| plot::Pair {
            label,
            proved: curve(begin, |measured| measured.proved),
            rust: curve(begin, |measured| measured.rust),
        };
        plot::Panel { title: self.title, pairs: self.done.iter().map(pair).collect() }
    }
}

fn draw(results: &Results, path: &PathBuf) -> Result<(), String> {
    let panels = panels().map(|growth| growth.panel(results));
    fs::write(path, plot::svg(&panels)).map_err(|error| format!("{}: {error}", path.display()))
}
