//! Reads scripts and prints the transcript by the proved code.
use compare::driver::drive_by;
use compare::options::{input_text, none, print, program};
use compare::script;
use compare::stored::Stored;
use std::process::ExitCode;

const USAGE: &str = "\
usage: drive-rattle < SCRIPTS
Prints the transcript of scripts by the proved code.
";

fn main() -> ExitCode {
    program(USAGE, none, |()| {
        let mut out = String::new();
        for script in script::read(&input_text()?)? {
            drive_by(&mut Stored::new(&script), &script, &mut out);
        }
        print(out).map(|()| true)
    })
}
