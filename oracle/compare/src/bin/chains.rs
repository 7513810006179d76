//! Compares the proved program `retell` with the Rust on random chain files, byte for byte.
use compare::chains::bent::RULES;
use compare::chains::classes::Met;
use compare::chains::seen::Seen;
use compare::chains::{files, mistakes};
use compare::inputs::Inputs;
use compare::options::{self, Options, Words, unknown};
use compare::program;
use compare::retelling::retell;
use compare::value::{Difference, Value, difference};
use std::fmt;
use std::path::{Path, PathBuf};
use std::process::ExitCode;

const PROGRAM: &str = concat!(env!("CARGO_MANIFEST_DIR"), "/../../crates/retell/out/retell");

const USAGE: &str = "\
usage: chains [--files N] [--full] [--seed N] [--program PATH] [--show N] [--self-test]
Compares the proved program `retell` with the Rust on random chain files, byte for byte.
  --files N        on so many files (2000)
  --full           on 100,000
  --seed N         other files (1)
  --program PATH   another program (crates/retell/out/retell of the project)
  --show N         only writes file N
  --self-test      mistakes in the place of the program; each has to be found
";

/// What is asked for: `count` files compared, or one `shown`.
struct Asked {
    options: Options,
    count: Option<u64>,
    shown: Option<u64>,
    program: PathBuf,
}

fn main() -> ExitCode {
    options::program(USAGE, read, run)
}

fn read(words: &mut Words) -> Result<Asked, String> {
    let (mut count, mut shown, mut program) = (None, None, PathBuf::from(PROGRAM));
    let options = Options::read_with(words, |word, words| {
        match word {
            "--files" => count = Some(words.number(word)?),
            "--show" => shown = Some(words.number(word)?),
            "--program" => program = words.path()?,
            _ => unknown(word)?,
        }
        Ok(())
    })?;
    Ok(Asked { options, count, shown, program })
}

fn run(asked: Asked) -> Result<bool, String> {
    let Asked { options: Options { full, seed, self_test }, count, shown, program } = asked;
    if let Some(k) = shown {
        return options::print(files::file(seed, k)).map(|()| true);
    }
    if self_test {
        return Ok(mistakes(seed));
    }
    // A program that cannot be run is no difference.
    program::run(&program, &[])?;
    Ok(retellings(&program, seed, count.unwrap_or(if full { 100_000 } else { 2_000 })))
}

/// A file and its number.
#[derive(Clone)]
struct File(u64, Vec<u8>);

impl Value for File {
    fn same(&self, other: &Self) -> bool {
        self.1 == other.1
    }
    fn hex(&self) -> String {
        format!("file {} of {} bytes", self.0, self.1.len())
    }
}

/// What a program prints, or why it prints nothing.
#[derive(Clone, PartialEq)]
struct Printed(Result<Vec<u8>, String>);

impl Printed {
    fn lines(&self) -> Vec<String> {
        match &self.0 {
            Ok(bytes) => String::from_utf8_lossy(bytes).split('\n').map(str::to_string).collect(),
            Err(error) => vec![error.clone()],
        }
    }
}

impl Value for Printed {
    fn same(&self, other: &Self) -> bool {
        self == other
    }
    fn hex(&self) -> String {
        self.lines().join("\n")
    }
}

/// Where two outputs part.
struct Parting<'a>(&'a Difference<File, Printed>);

impl fmt::Display for Parting<'_> {
    fn fmt(&self, f: &mut fmt::Formatter) -> fmt::Result {
        let Difference { input, ours, theirs } = self.0;
        let (ours, theirs) = (ours.lines(), theirs.lines());
        let line = ours.iter().zip(&theirs).take_while(|(ours, theirs)| ours == theirs).count();
        let [ours, theirs] =
            [ours, theirs].map(|lines| lines.get(line).cloned().unwrap_or("no more".into()));
        write!(f, "{}, line {}: program {ours:?}, Rust {theirs:?}", input.hex(), line + 1)
    }
}

fn some_files(seed: u64, len: u64) -> Inputs<impl Fn(u64) -> File + Sync> {
    Inputs { len, at: move |k| File(k, files::file(seed, k)) }
}

/// Whether the program prints what the Rust does, and every class of files is met.
fn retellings(program: &Path, seed: u64, count: u64) -> bool {
    let met = Met::default();
    let ours = |File(_, file)| Printed(program::run(program, &file));
    let theirs = |File(_, file)| Printed(Ok(rust(&file, &met)));
    match difference(&some_files(seed, count), ours, theirs) {
        None => println!("retell: {count} files, equal"),
        Some(found) => {
            println!("retell: different at {} (--seed {seed})", Parting(&found));
            return false;
        }
    }
    met.print()
}

/// The Rust's output: all slots at a time, which has to be that of one slot at a time.
fn rust(file: &[u8], met: &Met) -> Vec<u8> {
    let (whole, seen) = (retell(file), Seen::of(file));
    assert_eq!(whole, seen.text, "the Rust's rebuild depends on the budget");
    met.note(&seen);
    whole.into_bytes()
}

/// The files on which mistakes are looked for.
const SELF_TEST: u64 = 20_000;

/// Whether each mistake is found, and none where there is none.
fn mistakes(seed: u64) -> bool {
    type Program<'a> = &'a (dyn Fn(&[u8]) -> String + Sync);
    let find = |name: &str, count, program: Program| {
        let ours = |File(_, file): File| Printed(Ok(program(&file).into_bytes()));
        let theirs = |File(_, file): File| Printed(Ok(retell(&file).into_bytes()));
        let found = difference(&some_files(seed, count), ours, theirs);
        match &found {
            None => println!("{name}: equal"),
            Some(found) => println!("{name}: {:.160}", Parting(found).to_string()),
        }
        found.is_some()
    };
    let mut found = Vec::new();
    for (name, rules) in mistakes::rules() {
        found.push(find(name, SELF_TEST, &|file| rules.retell(file)));
    }
    for (name, print) in mistakes::PRINTING {
        found.push(find(name, SELF_TEST, &|file| print(retell(file))));
    }
    let missed = found.iter().filter(|&&found| !found).count();
    println!("{} of {} mistakes found", found.len() - missed, found.len());
    missed == 0 && !find("no mistake", 2_000, &|file| RULES.retell(file))
}
