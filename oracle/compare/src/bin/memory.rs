//! The memory of the proved guide and of the Rust's: their states, the stack that each call reaches, and
//! what an `observe` copies and stores.
use cittumay::{NUMBERS, REBUILD_WORDS, STRIDE, WORDS, door};
use compare::guide::Guide;
use compare::measure::rows::Style;
use compare::measure::stack::depth;
use compare::measure::trace::{self, Stored, marked, traced};
use compare::options::{Words, print, program, unknown};
use compare::retelling::{self, CRUMBS};
use compare::script::Call;
use compare::thinning::Line;
use compare::trials::{self, Kept, Proved, Rust, Trial};
use compare::{Place, chain, grouped, lines, longest, proved, reference};
use std::collections::HashMap;
use std::hint::black_box;
use std::process::ExitCode;
use vana::ride::course;
use vana::ride::homing::rebuild::Rebuild;
use vana::ride::homing::{Crumb, Homing};

const USAGE: &str = "\
usage: memory [--markdown] [--perform ROW]
Tells the bytes of a guide's state, of the stack that each call reaches, and those that an `observe` copies and stores, proved and the Rust's.
  --markdown      prints Markdown tables
  --perform ROW   only performs the fixes of a row, for the trace of what they store
";

enum Task {
    Tell { markdown: bool },
    Perform(Trial),
}

fn main() -> ExitCode {
    program(USAGE, read, |task| {
        match task {
            Task::Perform(trial) => perform(&trial)?,
            Task::Tell { markdown } => {
                let style = Style { markdown };
                states(&style)?;
                stacks(&style)?;
                stores(&style)?;
            }
        }
        Ok(true)
    })
}

fn read(words: &mut Words) -> Result<Task, String> {
    let mut task = Task::Tell { markdown: false };
    while let Some(word) = words.next() {
        task = match word.as_str() {
            "--markdown" => Task::Tell { markdown: true },
            "--perform" => {
                let name = words.next().ok_or("no row behind --perform")?;
                let trial = stored_trials().into_iter().find(|trial| trial.name == name);
                Task::Perform(trial.map_or_else(|| unknown(&name), Ok)?)
            }
            _ => unknown(&word)?,
        };
    }
    Ok(task)
}

fn table(
    style: &Style,
    name: &str,
    head: &[&str],
    lines: impl IntoIterator<Item = Vec<String>>,
) -> Result<(), String> {
    let head: Vec<_> = head.iter().map(|&cell| cell.to_owned()).collect();
    let lines: String = lines.into_iter().map(|line| style.line(&line, &head)).collect();
    print(format!("{}{lines}\n", style.head(name, &head)))
}

// ---- states

fn states(style: &Style) -> Result<(), String> {
    let guide = size_of::<[u64; WORDS]>() + size_of::<[f32; NUMBERS]>();
    let sizes = [
        ("guide", guide, size_of::<Homing>()),
        ("rebuild", size_of::<[u64; REBUILD_WORDS]>(), size_of::<Rebuild>()),
        ("crumb or point", size_of::<[f32; STRIDE]>(), size_of::<Crumb>()),
    ];
    let line = |(what, proved, rust): (&str, usize, usize)| {
        vec![what.to_owned(), grouped(proved), grouped(rust)]
    };
    table(style, "states", &["state", "proved, bytes", "Rust, bytes"], sizes.map(line))
}

// ---- stacks

const NOW: u64 = 10_000_000;
const HERE: Place = (0, 0);

/// The calls, in the order of the header.
const CALLS: [&str; 25] = [
    "new",
    "reset",
    "set_course",
    "observe",
    "observe_missing",
    "replay",
    "end_replay",
    "set_auto_follow",
    "set_following",
    "len",
    "following",
    "following_course",
    "course_ahead",
    "route_home",
    "heading",
    "guide",
    "way_back",
    "crumbs",
    "course",
    "arrow",
    "rebuild_new",
    "rebuild_step",
    "rebuild_caught_up",
    "rebuild_settle",
    "thin",
];

#[derive(Clone, Copy)]
enum Side {
    Proved,
    Rust,
}

/// The deepest that each call reached, on both sides.
#[derive(Default)]
struct Deepest(HashMap<&'static str, [usize; 2]>);

impl Deepest {
    fn note(
        &mut self,
        side: Side,
        call: &'static str,
        work: impl FnMut() + Send,
    ) -> Result<(), String> {
        assert!(CALLS.contains(&call), "a call of the table");
        let deepest = &mut self.0.entry(call).or_default()[side as usize];
        *deepest = (*deepest).max(depth(work)?);
        Ok(())
    }
}

/// Notes calls of a kept guide, each as it was kept.
macro_rules! note {
    ($deepest:ident, $side:ident, $kept:ident; $($name:literal: $guide:ident => $call:expr;)*) => {
        $({
            let $guide = &mut $kept.again();
            $deepest.note(Side::$side, $name, || {
                let _ = black_box($call);
            })?;
        })*
    };
}

/// Notes the calls that both sides have by the same names.
macro_rules! note_same {
    ($deepest:ident, $side:ident, $kept:ident, $trial:ident) => {
        note! { $deepest, $side, $kept;
            "reset": guide => guide.reset();
            "observe_missing": guide => guide.observe(None, NOW);
            "replay": guide => guide.replay(HERE, NOW);
            "end_replay": guide => guide.end_replay();
            "set_auto_follow": guide => guide.set_auto_follow(false);
            "set_following": guide => guide.set_following(true, NOW);
            "set_following": guide => guide.set_following(false, NOW);
            "len": guide => guide.len();
            "following": guide => guide.following();
            "following_course": guide => guide.following_course();
            "course_ahead": guide => guide.course_ahead();
            "route_home": guide => guide.route_home();
            "heading": guide => guide.heading();
            "guide": guide => guide.guide();
            "way_back": guide => guide.way_back();
            "crumbs": guide => guide.crumbs();
            "course": guide => guide.course();
        }
        note! { $deepest, $side, $kept;
            "observe": guide => for (place, now) in observed(&$trial.fixes) {
                let _ = black_box(guide.observe(place, now));
            };
        }
    };
}

fn observed(fixes: &[Call]) -> impl Iterator<Item = (Option<Place>, u64)> {
    fixes.iter().filter_map(|fix| match fix {
        Call::Observe(place, now) => Some((*place, *now)),
        _ => None,
    })
}

fn stacks(style: &Style) -> Result<(), String> {
    let mut deepest = Deepest::default();
    for trial in deep_trials() {
        let (mut proved, mut rust) = (Proved::ridden(&trial.script), Rust::ridden(&trial.script));
        note_same!(deepest, Proved, proved, trial);
        note_same!(deepest, Rust, rust, trial);
        set_courses(&mut deepest, &mut proved, &mut rust)?;
    }
    new_guides(&mut deepest)?;
    arrows(&mut deepest)?;
    rebuilds(&mut deepest)?;
    thinnings(&mut deepest)?;
    let line = |call| {
        let sides = deepest.0[call].map(grouped);
        [format!("`{call}`")].into_iter().chain(sides).collect()
    };
    table(style, "stacks", &["call", "proved, bytes", "Rust, bytes"], CALLS.map(line))
}

/// The rides that are timed, and those on which the breadcrumb is thinned, the rider turns round, a line is
/// left for good, or ends.
fn deep_trials() -> Vec<Trial> {
    let mut trials = trials::timed();
    trials.extend([
        trials::thinning(),
        trials::turning_round(),
        trials::leaving(600),
        trials::following(200, 600),
        trials::ending(200),
    ]);
    trials
}

fn set_courses(deepest: &mut Deepest, proved: &mut Proved, rust: &mut Rust) -> Result<(), String> {
    note! { deepest, Proved, proved;
        "set_course": guide => guide.set_course(&[0, 900, 900], &[0, 0, 900]);
    }
    let points =
        [(0, 0), (900, 0), (900, 900)].map(|(lat_e7, lon_e7)| course::Point { lat_e7, lon_e7 });
    note! { deepest, Rust, rust;
        "set_course": guide => guide.set_course(&points);
    }
    Ok(())
}

fn new_guides(deepest: &mut Deepest) -> Result<(), String> {
    let (mut words, mut numbers, crumbs) = ([0; WORDS], [0.0; NUMBERS], [0.0; 8 * STRIDE]);
    deepest.note(Side::Proved, "new", || {
        black_box(door::new(&mut words, &mut numbers, &crumbs));
    })?;
    let mut crumbs = [Crumb::default(); 8];
    deepest.note(Side::Rust, "new", || {
        black_box(Homing::new(&mut crumbs));
    })
}

fn arrows(deepest: &mut Deepest) -> Result<(), String> {
    let Trial { script, fixes, .. } = trials::homing(60);
    let (mut proved, mut rust) = (Proved::ridden(&script), Rust::ridden(&script));
    let guide = told(&mut proved, &fixes).guide().ok().flatten().ok_or("no guide is shown")?;
    deepest.note(Side::Proved, "arrow", || {
        let _ = black_box(guide.arrow());
    })?;
    let guide = told(&mut rust, &fixes).guide().ok_or("no guide is shown")?;
    deepest.note(Side::Rust, "arrow", || {
        black_box(guide.arrow());
    })
}

/// A kept guide behind some calls.
fn told<'a, K: Kept>(kept: &'a mut K, calls: &[Call]) -> K::Guide<'a> {
    let mut guide = kept.again();
    calls.iter().for_each(|call| drop(guide.perform(call)));
    guide
}

fn rebuilds(deepest: &mut Deepest) -> Result<(), String> {
    let file = longest::file();
    let chain = chain::read(&file).expect("a good file");
    let (recovered, upper) = (chain.recovered, chain.entries.len());
    let refused = |_| "a rebuild is refused".to_owned();

    let mut crumbs = vec![0.0; STRIDE * CRUMBS];
    let mut guide = cittumay::Homing::new(&mut crumbs).map_err(refused)?;
    let mut rebuild = cittumay::Rebuild::new(recovered, upper).map_err(refused)?;
    deepest.note(Side::Proved, "rebuild_new", || {
        let _ = black_box(cittumay::Rebuild::new(recovered, upper));
    })?;
    deepest.note(Side::Proved, "rebuild_step", || {
        let _ = black_box(rebuild.step(&mut guide, &file, upper, upper));
    })?;
    deepest.note(Side::Proved, "rebuild_caught_up", || {
        let _ = black_box(rebuild.caught_up(upper));
    })?;
    deepest.note(Side::Proved, "rebuild_settle", || {
        let _ = black_box(rebuild.settle(&mut guide, None));
    })?;

    let mut crumbs = vec![Crumb::default(); CRUMBS];
    let mut guide = Homing::new(&mut crumbs);
    let mut rebuild = Rebuild::new(recovered, upper);
    deepest.note(Side::Rust, "rebuild_new", || {
        black_box(Rebuild::new(recovered, upper));
    })?;
    let read = |slot| chain.entries.get(slot).and_then(retelling::entry);
    deepest.note(Side::Rust, "rebuild_step", || {
        black_box(rebuild.step(&mut guide, upper, upper, read));
    })?;
    deepest.note(Side::Rust, "rebuild_caught_up", || {
        black_box(rebuild.caught_up(upper));
    })?;
    deepest.note(Side::Rust, "rebuild_settle", || {
        rebuild.settle(&mut guide, None);
    })
}

fn thinnings(deepest: &mut Deepest) -> Result<(), String> {
    let [(_, _, road), ..] = lines::measured(4_096);
    let Line { crumbs, len, mut tolerance } = Line::full(&road, 6.0);
    let (mut ours, mut theirs) = (crumbs.clone(), crumbs);
    deepest.note(Side::Proved, "thin", || {
        black_box(proved::thin(&mut ours, len, tolerance));
    })?;
    deepest.note(Side::Rust, "thin", || {
        black_box(reference::thin_alone(&mut theirs, len, &mut tolerance));
    })
}

// ---- stores

/// Rides that are short, since a trace is long.
fn stored_trials() -> Vec<Trial> {
    vec![
        trials::recording(60),
        trials::homing(60),
        trials::following(100, 0),
        trials::following(100, 120),
        trials::near(100, false),
        trials::near(100, true),
    ]
}

fn stores(style: &Style) -> Result<(), String> {
    let head = [
        "`observe`",
        "side",
        "instructions",
        "calls of memcpy",
        "bytes copied by them",
        "bytes stored in all",
    ];
    let mut lines = Vec::new();
    for trial in stored_trials() {
        let Some(sides) = traced(&["--perform", &trial.name])? else {
            return print("There is no valgrind: what is stored is not counted.\n");
        };
        let [proved, rust] = sides[..] else {
            return Err(format!("the trace of {}: {} pieces", trial.name, sides.len()));
        };
        let title = if style.markdown { trial.title } else { trial.name };
        lines.push(stored(&title, "proved", proved));
        lines.push(stored(&title, "Rust", rust));
    }
    table(style, "stores", &head, lines)
}

fn stored(title: &str, side: &str, stored: Stored) -> Vec<String> {
    let Stored { instructions, copies, copied, stored } = stored;
    let each = |all: usize| all as f64 / trials::FIXES as f64;
    let whole = |all| grouped(each(all).round() as usize);
    let copies = format!("{:.1}", each(copies));
    let words = [title.to_owned(), side.to_owned()];
    words.into_iter().chain([whole(instructions), copies, whole(copied), whole(stored)]).collect()
}

/// Performs the fixes of a row between marks, first the proved guide, then the Rust's.
fn perform(trial: &Trial) -> Result<(), String> {
    let (mut proved, mut rust) = (Proved::ridden(&trial.script), Rust::ridden(&trial.script));
    let (mut ours, mut theirs) = (proved.again(), rust.again());
    trace::ready()?;
    marked(|| performed(&mut ours, &trial.fixes));
    marked(|| performed(&mut theirs, &trial.fixes));
    Ok(())
}

fn performed(guide: &mut impl Guide, fixes: &[Call]) {
    for fix in black_box(fixes) {
        black_box(guide.perform(fix));
    }
}
