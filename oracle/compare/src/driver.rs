//! Drives the Rust through a script.
use crate::coverage::Coverage;
use crate::guide::Performs;
use crate::original::{Buffers, Original};
use crate::script::{Call, Script};
use crate::transcript::{Answer, Told};

/// What takes down a script's answers: as text (`transcript`), or as numbers (`recording`).
pub trait Tells {
    /// Behind `new`, a script's call 1.
    fn begin(&mut self, told: &Told);
    fn after(&mut self, number: usize, call: &Call, answer: &Answer, told: &Told);
    fn end(&mut self, told: &Told);
}

/// Takes down the answers by the Rust. An error where the script leaves the domain of comparison,
/// unless it may go `beyond`.
pub fn drive(
    script: &Script,
    beyond: bool,
    coverage: &mut Coverage,
    out: &mut impl Tells,
) -> Result<(), String> {
    let mut buffers = Buffers::of(script);
    let mut original = Original::new(&mut buffers);
    out.begin(&original.told());
    for (number, call) in (2..).zip(&script.calls) {
        let step = original.step(call);
        out.after(number, call, &step.answer, &step.told);
        coverage.note(&step);
        if let Some(why) = step.leaves.filter(|_| !beyond) {
            return Err(format!("call {number}, {call}: the domain of comparison ends: {why}"));
        }
    }
    coverage.end_script();
    out.end(&original.told());
    Ok(())
}

/// Takes down the answers by another guide.
pub fn drive_by(guide: &mut impl Performs, script: &Script, out: &mut impl Tells) {
    out.begin(&guide.told());
    for (number, call) in (2..).zip(&script.calls) {
        let answer = guide.perform(call);
        out.after(number, call, &answer, &guide.told());
    }
    out.end(&guide.told());
}
