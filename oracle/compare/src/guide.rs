//! What performs a script's calls: the Rust, its copies, or the proved code.
use crate::script::Call;
use crate::transcript::{Answer, Answers, Told};

/// A guide alone, which performs its own calls.
pub trait Guide {
    fn perform(&mut self, call: &Call) -> Answer;
    fn answers(&self) -> Answers;
}

/// A guide and its rebuild, which perform every line of a script.
pub trait Performs {
    fn perform(&mut self, call: &Call) -> Answer;
    fn told(&self) -> Told;
}
