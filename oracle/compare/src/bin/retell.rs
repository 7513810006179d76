//! What the program `retell` has to print of a chain file, by the Rust.
use compare::options::{input, none, print, program};
use compare::retelling::retell;
use std::process::ExitCode;

const USAGE: &str = "\
usage: retell < FILE
Prints by the Rust what the program `retell` has to print of a chain file.
";

fn main() -> ExitCode {
    program(USAGE, none, |()| print(retell(&input()?)).map(|()| true))
}
