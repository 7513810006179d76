//! A script performed by the Rust and by another guide, compared after every call.
use crate::coverage::Coverage;
use crate::guide::Performs;
use crate::original::{Buffers, Original};
use crate::script::Script;
use crate::transcript::{Answer, whole};
use std::fmt;

/// The first call after which the two differ, and what each tells.
pub struct Difference {
    pub number: usize,
    pub call: String,
    pub ours: String,
    pub theirs: String,
}

impl fmt::Display for Difference {
    fn fmt(&self, f: &mut fmt::Formatter) -> fmt::Result {
        writeln!(f, "call {}, {}", self.number, self.call)?;
        let (ours, theirs): (Vec<_>, Vec<_>) =
            (self.ours.lines().collect(), self.theirs.lines().collect());
        for k in 0..ours.len().max(theirs.len()) {
            let [ours, theirs] = [&ours, &theirs].map(|lines| lines.get(k).unwrap_or(&"(nothing)"));
            if ours != theirs {
                writeln!(f, "  Rust  {theirs}\n  other {ours}")?;
            }
        }
        Ok(())
    }
}

/// Compared are the call's answer, what the guide answers to every question, every held crumb, the whole
/// placed line and the rebuild's state.
pub fn difference(
    script: &Script,
    ours: &mut impl Performs,
    coverage: &mut Coverage,
) -> Option<Difference> {
    let mut buffers = Buffers::of(script);
    let mut original = Original::new(&mut buffers);
    let told = [ours.told(), original.told()];
    if told[0] != told[1] {
        let [ours, theirs] = told.map(|told| whole(1, "new", &Answer::Nothing, &told));
        return Some(Difference { number: 1, call: "new".to_owned(), ours, theirs });
    }
    for (number, call) in (2..).zip(&script.calls) {
        let step = original.step(call);
        coverage.note(&step);
        let (answer, told) = (ours.perform(call), ours.told());
        if answer != step.answer || told != step.told {
            return Some(Difference {
                number,
                call: call.to_string(),
                ours: whole(number, call.word(), &answer, &told),
                theirs: whole(number, call.word(), &step.answer, &step.told),
            });
        }
    }
    coverage.end_script();
    None
}
