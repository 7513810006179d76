//! Calls through the door with what document 01's questions refuse, alone and in pairs.
pub mod calls;
pub mod faults;
pub mod given;

use calls::Call;
use faults::Fault;
use given::Given;

/// "First no wins": the order of the questions.
const ORDER: [u8; 10] = [1, 10, 9, 4, 6, 7, 8, 5, 2, 3];

/// The calls that return a part of a lent buffer, which is empty on a refusal.
const PARTS: [&str; 2] = ["crumbs", "course"];

/// Behind all of them what no question refuses, 0.
fn rank(question: u8) -> usize {
    ORDER.iter().position(|&number| number == question).unwrap_or(ORDER.len())
}

/// What a call with these faults has to be refused by.
fn expected(faults: &[&Fault]) -> u8 {
    let first = faults.iter().map(|fault| fault.question).min_by_key(|&question| rank(question));
    first.unwrap_or(0)
}

/// Makes the call with these faults. An error where it is not refused by the first question that says
/// no, or changes something but the length of its part to 0.
pub fn check(call: &Call, good: &Given, faults: &[&Fault]) -> Result<(), String> {
    let mut given = good.clone();
    // The fault that counts comes last, so that it is there whatever the others did.
    let mut sorted = faults.to_vec();
    sorted.sort_by_key(|fault| std::cmp::Reverse(rank(fault.question)));
    sorted.iter().for_each(|fault| (fault.spoil)(&mut given));
    let mut left = given.clone();
    if PARTS.contains(&call.name) {
        left.told.size = 0;
    }
    let (number, expected) = ((call.make)(&mut given), expected(faults));
    let names: Vec<&str> = faults.iter().map(|fault| fault.name.as_str()).collect();
    let case = format!("{}, {}", call.name, names.join(" and "));
    if number != expected {
        return Err(format!("{case}: answers {number}, not {expected}"));
    }
    if expected != 0 && given.patterns() != left.patterns() {
        return Err(format!("{case}: refused, but not all is left as it has to be"));
    }
    Ok(())
}
