//! The time of a call of the proved functions and the Rust's on the same inputs.
use compare::measure::rows::{Measured, Options, Row, Table, measure};
use compare::measure::{Times, alternate, microseconds, nanoseconds};
use compare::options::program;
use compare::random::Random;
use compare::thinning::Line;
use compare::{Framing, Place, Point, lines, proved, reference};
use std::hint::black_box;
use std::process::ExitCode;

const INPUTS: u64 = 4_096;
const CRUMBS: usize = 4_096;

const USAGE: &str = "\
usage: speed [--runs N] [--markdown] [--list] [ROW..]
Measures the time of a call of each function and of a thinning, proved and the Rust's: the median of the runs, the lowest and the highest.
  --runs N     so many runs of each side, in turn; 5 or more (25)
  --markdown   prints Markdown tables
  --list       only prints the names of the rows
  ROW..        only these rows, and those whose names go on with a hyphen
";

fn main() -> ExitCode {
    program(
        USAGE,
        |words| Options::read(words, &tables()),
        |options| Ok(measure(tables(), &options)?.is_some()),
    )
}

fn tables() -> Vec<Table> {
    vec![
        Table {
            name: "functions",
            head: vec!["function", "proved, ns", "Rust, ns", "proved / Rust"],
            rows: functions(),
        },
        Table {
            name: "thinnings",
            head: vec!["thin", "passes", "left", "proved, µs", "Rust, µs", "proved / Rust"],
            rows: thinnings(),
        },
    ]
}

// ---- functions

fn functions() -> Vec<Row> {
    let mut homing = reference::guide();
    let frame = move |framing| reference::frame_of(&mut homing, framing);
    vec![
        function("sqrtf", length, proved::sqrtf, reference::sqrtf),
        function("as_u32", length, proved::as_u32, reference::as_u32),
        function("cosf", radians, proved::cosf, reference::cosf),
        function("atan2f", point, proved::atan2f, reference::atan2f),
        function("distance", pair, proved::distance, reference::distance),
        function("project", triple, proved::project, reference::project),
        function("off_segment", triple, proved::off_segment, reference::off_segment),
        function("bearing", pair, proved::bearing, reference::bearing),
        function("east_per_e7", latitude, proved::east_per_e7, reference::east_per_e7),
        function("frame", framing, proved::frame, frame),
    ]
}

fn function<I: Copy + 'static, O: 'static>(
    name: &str,
    input: fn(&mut Random) -> I,
    proved: impl Fn(I) -> O + 'static,
    mut rust: impl FnMut(I) -> O + 'static,
) -> Row {
    Row::new(name, name, move |runs| {
        let inputs: Vec<I> = (0..INPUTS).map(|k| input(&mut Random::new(1, k))).collect();
        let [ours, theirs] = alternate(
            runs,
            [&mut || per_call(&inputs, |x| proved(*x)), &mut || {
                per_call(&inputs, |x| called(&mut rust, x))
            }],
        );
        let cells = both(&ours, &theirs, 2).into();
        Some(Measured { cells, proved: ours.median(), rust: theirs.median() })
    })
}

/// The times of both sides, and their ratio.
fn both(ours: &Times, theirs: &Times, digits: usize) -> [String; 3] {
    [ours.text(digits), theirs.text(digits), format!("{:.2}", ours.over(theirs))]
}

/// Makes the Rust's side pay a call, as the proved one does.
#[inline(never)]
fn called<I: Copy, O>(function: &mut impl FnMut(I) -> O, input: &I) -> O {
    function(*input)
}

fn per_call<I, O>(inputs: &[I], mut function: impl FnMut(&I) -> O) -> f64 {
    let all = nanoseconds(|| {
        for input in black_box(inputs) {
            black_box(function(input));
        }
    });
    all / inputs.len() as f64
}

// ---- thinnings

fn thinnings() -> Vec<Row> {
    let row = |(name, title, places): (&str, &str, Vec<Point>)| thinning(name, title, &places);
    lines::measured(CRUMBS).map(row).into()
}

fn thinning(name: &str, title: &str, places: &[Point]) -> Row {
    let line = Line::full(places, 6.0);
    Row::new(format!("thin-{name}"), title, move |runs| {
        let (mut crumbs, mut tolerance) = (line.crumbs.clone(), line.tolerance);
        let left = reference::thin_alone(&mut crumbs, line.len, &mut tolerance);
        let answer = proved::thin(&mut line.crumbs.clone(), line.len, line.tolerance);
        if answer.len != left {
            return None;
        }
        let ours = |crumbs: &mut [f32], len, tolerance| proved::thin(crumbs, len, tolerance).len;
        let theirs = |crumbs: &mut [f32], len, mut tolerance| {
            reference::thin_alone(crumbs, len, &mut tolerance)
        };
        let [ours, theirs] =
            alternate(runs, [&mut || thinned(&line, ours), &mut || thinned(&line, theirs)]);
        let mut cells = vec![answer.passes.to_string(), left.to_string()];
        cells.extend(both(&ours, &theirs, 0));
        Some(Measured { cells, proved: ours.median(), rust: theirs.median() })
    })
}

/// Microseconds of a thinning, of a copy made before.
fn thinned(line: &Line, thin: impl Fn(&mut [f32], usize, f32) -> usize) -> f64 {
    let mut crumbs = line.crumbs.clone();
    microseconds(|| {
        black_box(thin(black_box(&mut crumbs), line.len, line.tolerance));
    })
}

// ---- inputs

/// Up to 2^20.
fn length(random: &mut Random) -> f32 {
    random.word() as f32 / 4_096.0
}

/// Within pi / 2.
fn radians(random: &mut Random) -> f32 {
    random.word() as i32 as f32 * 7.3e-10
}

/// Within 2^11 m.
fn point(random: &mut Random) -> Point {
    (random.word() as i32 as f32 / 1_048_576.0, random.word() as i32 as f32 / 1_048_576.0)
}

fn pair(random: &mut Random) -> [Point; 2] {
    [point(random), point(random)]
}

fn triple(random: &mut Random) -> [Point; 3] {
    [point(random), point(random), point(random)]
}

fn place(random: &mut Random) -> Place {
    (random.within(900_000_000), random.within(1_800_000_000))
}

fn latitude(random: &mut Random) -> i32 {
    place(random).0
}

fn framing(random: &mut Random) -> Framing {
    (place(random), 0.007, place(random))
}
