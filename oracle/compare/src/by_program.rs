//! A program that performs a script and compares its answers with stored ones, given the Rust's: `dump`
//! behind each call tells every crumb and the placed line. None stands behind a line that prepares a call,
//! which would be prepared in vain.
use crate::compared::Difference;
use crate::coverage::Coverage;
use crate::driver::drive;
use crate::program;
use crate::recording::Recording;
use crate::script::{Call, Script};
use std::path::Path;

/// A script with `dump` behind each call, and the number that each of its calls has in the script it is made of.
struct Given {
    script: Script,
    numbers: Vec<usize>,
}

impl Given {
    fn of(script: &Script) -> Self {
        let (mut calls, mut numbers) = (Vec::new(), vec![1]);
        for (number, call) in (2..).zip(&script.calls) {
            calls.push(call.clone());
            if !call.prepares() {
                calls.push(Call::Dump);
                numbers.extend([number; 2]);
            }
        }
        Self { script: Script { calls, ..*script }, numbers }
    }

    fn recording(&self) -> Recording {
        let mut recording = Recording::of(&self.script);
        drive(&self.script, true, &mut Coverage::default(), &mut recording)
            .expect("it may go beyond");
        recording
    }
}

/// `None` where the program says that every call agrees; a program that fails says why.
pub fn difference(script: &Script, program: &Path, coverage: &mut Coverage) -> Option<Difference> {
    let given = Given::of(script);
    drive(script, true, coverage, &mut Recording::of(script)).expect("it may go beyond");
    let said = match program::run(program, &given.recording().bytes()) {
        Ok(printed) => String::from_utf8_lossy(&printed).into_owned(),
        Err(error) => error,
    };
    (said != format!("{} calls agree\n", given.numbers.len()))
        .then(|| unlike(&said, script, &given))
}

/// The call that differs, with what the program says of it.
fn unlike(said: &str, script: &Script, given: &Given) -> Difference {
    let agreed: usize = said.split(' ').next().and_then(|n| n.parse().ok()).unwrap_or(0);
    let number = given.numbers[agreed.min(given.numbers.len() - 1)];
    let call = number.checked_sub(2).map_or("new".to_owned(), |k| script.calls[k].to_string());
    let said = said.trim_end();
    let what = said.split_once("does not: ").map_or(said, |(_, what)| what);
    let (ours, theirs) = match what.split_once(", stored ") {
        Some((ours, stored)) => {
            let field = ours.rsplit_once(" is ").map_or(ours, |(field, _)| field);
            (ours, format!("{field} is {stored}"))
        }
        None => (what, "every call agrees".to_owned()),
    };
    Difference { number, call, theirs, ours: ours.to_owned() }
}
