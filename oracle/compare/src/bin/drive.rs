//! Reads scripts and prints the transcript by the Rust.
use compare::coverage::Coverage;
use compare::driver::drive;
use compare::options::{Words, input_text, print, program, unknown};
use compare::script;
use std::process::ExitCode;

const USAGE: &str = "\
usage: drive [--coverage] [--domain] < SCRIPTS
Prints the transcript of scripts by the Rust, outside the domain of comparison with document 01's additions.
  --coverage   tells on standard error how many calls met each class
  --domain     a script that leaves the domain is an error
";

struct Options {
    coverage: bool,
    beyond: bool,
}

fn main() -> ExitCode {
    program(USAGE, read, run)
}

fn read(words: &mut Words) -> Result<Options, String> {
    let mut options = Options { coverage: false, beyond: true };
    for word in words {
        match word.as_str() {
            "--coverage" => options.coverage = true,
            "--domain" => options.beyond = false,
            _ => unknown(&word)?,
        }
    }
    Ok(options)
}

fn run(options: Options) -> Result<bool, String> {
    let (mut coverage, mut out) = (Coverage::default(), String::new());
    let mut scripts = script::read(&input_text()?)?.into_iter();
    let driven =
        scripts.try_for_each(|script| drive(&script, options.beyond, &mut coverage, &mut out));
    print(out)?;
    if options.coverage {
        coverage.print();
    }
    driven.map(|()| true)
}
