//! Compares whole guides on random scripts. A class that no call meets is a failure.
use compare::compared::{self, Difference};
use compare::coverage::Coverage;
use compare::homing::{Lent, Rebuilt};
use compare::options::{self, Words, unknown};
use compare::questions::Asked;
use compare::script::Script;
use compare::shorten::shortened;
use compare::stored::Stored;
use compare::{by_program, program, riders};
use std::ops::Range;
use std::path::PathBuf;
use std::process::ExitCode;
use std::sync::atomic::{AtomicBool, Ordering::Relaxed};
use std::{env, fs, thread};
use vana::mistaken::homing::Homing;
use vana::mistaken::homing::rebuild::Rebuild;
use vana::{copies, mistakes};

const USAGE: &str = "\
usage: scripts [--scripts N] [--full] [--seed N] [--first N] [--program PATH] [--print] [--self-test]
Compares whole guides on random scripts after every call, the proved code behind the door with the Rust.
  --scripts N      so many scripts (2000)
  --full           200,000
  --seed N         other scripts (1)
  --first N        from this one on (0)
  --program PATH   with a program that is given each script with the Rust's answers
  --print          only prints the scripts
  --self-test      mistakes in the place of the Rust; each has to be found
";

struct Options {
    scripts: u64,
    seed: u64,
    first: u64,
    self_test: bool,
    print: bool,
    program: Option<PathBuf>,
}

impl Options {
    fn read(words: &mut Words) -> Result<Self, String> {
        let mut options = Self {
            scripts: 2_000,
            seed: 1,
            first: 0,
            self_test: false,
            print: false,
            program: None,
        };
        while let Some(word) = words.next() {
            match word.as_str() {
                "--full" => options.scripts = 200_000,
                "--scripts" => options.scripts = words.number(&word)?,
                "--seed" => options.seed = words.number(&word)?,
                "--first" => options.first = words.number(&word)?,
                "--self-test" => options.self_test = true,
                "--print" => options.print = true,
                "--program" => options.program = Some(words.path()?),
                _ => unknown(&word)?,
            }
        }
        Ok(options)
    }

    fn numbers(&self) -> Range<u64> {
        self.first..self.first.saturating_add(self.scripts)
    }
}

/// Compares a script, and notes what it meets.
type Differs<'a> = &'a (dyn Fn(&Script, &mut Coverage) -> Option<Difference> + Sync);

fn main() -> ExitCode {
    options::program(USAGE, Options::read, |options| match (&options.program, options.self_test) {
        _ if options.print => print(&options),
        (_, true) => Ok(mistakes_found(&options)),
        (Some(path), _) => {
            // A program that cannot be run is no difference.
            program::run(path, &[])?;
            equal(&options, &|script, coverage| by_program::difference(script, path, coverage))
        }
        (None, _) => equal(&options, &proved),
    })
}

fn print(options: &Options) -> Result<bool, String> {
    let script = |k| riders::script(options.seed, k).to_string();
    options.numbers().try_for_each(|k| options::print(script(k)))?;
    Ok(true)
}

/// The proved guide, through the door.
fn proved(script: &Script, coverage: &mut Coverage) -> Option<Difference> {
    compared::difference(script, &mut Stored::new(script), coverage)
}

/// The copy that makes the chosen mistake.
fn mistaken(script: &Script, coverage: &mut Coverage) -> Option<Difference> {
    let mut lent = Lent::to(script);
    let guide = Rebuilt::<Homing, Rebuild>::new(&mut lent);
    compared::difference(script, &mut Asked::new(script, guide), coverage)
}

/// The first script of each half on which the two differ; what the scripts met.
fn search(options: &Options, differs: Differs) -> (Option<(u64, Script)>, Coverage) {
    let found = AtomicBool::new(false);
    let half = |numbers: Range<u64>| {
        let mut coverage = Coverage::default();
        for k in numbers {
            let script = riders::script(options.seed, k);
            if differs(&script, &mut coverage).is_some() {
                found.store(true, Relaxed);
                return (Some((k, script)), coverage);
            }
            if found.load(Relaxed) {
                break;
            }
        }
        (None, coverage)
    };
    let Range { start, end } = options.numbers();
    let middle = start + (end - start) / 2;
    thread::scope(|scope| {
        let lower = scope.spawn(|| half(start..middle));
        let (upper, mut coverage) = half(middle..end);
        let (lower, met) = lower.join().expect("no panic");
        coverage.add(&met);
        (lower.or(upper), coverage)
    })
}

fn equal(options: &Options, differs: Differs) -> Result<bool, String> {
    let (found, coverage) = search(options, differs);
    let (scripts, calls) = coverage.size();
    if let Some((k, script)) = found {
        show(options.seed, k, &script, &|script| differs(script, &mut Coverage::default()))?;
        return Ok(false);
    }
    println!("{}", coverage.per_thousand());
    println!("scripts: {scripts} scripts, {calls} calls, equal (seed {})", options.seed);
    let unmet = coverage.unmet_at_random();
    unmet.iter().for_each(|class| println!("no call met: {class}"));
    Ok(unmet.is_empty())
}

fn show(
    seed: u64,
    k: u64,
    script: &Script,
    differs: &dyn Fn(&Script) -> Option<Difference>,
) -> Result<(), String> {
    let short = shortened(script, differs);
    let file = env::temp_dir().join(format!("scripts-{seed}-{k}.txt"));
    fs::write(&file, short.to_string()).map_err(|error| format!("{}: {error}", file.display()))?;
    let difference = differs(&short).expect("it differs still");
    let calls = short.calls.len();
    println!("script {k} of seed {seed}, cut down to {calls} calls in {}", file.display());
    print!("{difference}");
    Ok(())
}

/// Whether each mistake is found, and none where none is made.
fn mistakes_found(options: &Options) -> bool {
    let mut good = true;
    for (k, (name, _)) in copies::MISTAKES.iter().enumerate() {
        mistakes::make(Some(k));
        match search(options, &mistaken).0 {
            Some((number, script)) => {
                let difference = mistaken(&script, &mut Coverage::default()).expect("it differs");
                println!("{name}: found by script {number}, call {}", difference.number);
            }
            None => {
                println!("{name}: NOT FOUND in {} scripts", options.scripts);
                good = false;
            }
        }
    }
    mistakes::make(None);
    let none = search(options, &mistaken).0.is_none();
    println!("no mistake: {}", if none { "none found" } else { "FOUND ONE" });
    good && none
}
