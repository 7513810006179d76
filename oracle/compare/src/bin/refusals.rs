//! Makes each call through the door with each bad input. A refusal has to carry the number of the first
//! question that says no, and to change nothing; where a part is returned its length has to be 0.
use compare::options::{none, program};
use compare::refusals::calls::{CALLS, Call, Part};
use compare::refusals::faults::{Fault, faults, limits};
use compare::refusals::{check, given::Given};
use std::process::ExitCode;

const USAGE: &str = "\
usage: refusals
Makes each call through the door with each bad input, alone and in pairs, and with what is just allowed.
";

fn main() -> ExitCode {
    program(USAGE, none, |()| Ok(refusals()))
}

/// Whether each call is refused as it has to be.
fn refusals() -> bool {
    let (good, faults, limits) = (Given::good(), faults(), limits());
    let mut wrong = 0;
    let mut made = |case: Result<(), String>| {
        case.unwrap_or_else(|error| {
            wrong += 1;
            println!("{error}");
        });
    };
    for call in &CALLS {
        let lies = |fault: &&Fault| call.parts.contains(&fault.part) && applies(call, fault);
        let own: Vec<&Fault> = faults.iter().filter(lies).collect();
        made(check(call, &good, &[]));
        let allowed: Vec<&Fault> = limits.iter().filter(lies).collect();
        allowed.iter().for_each(|limit| made(check(call, &good, &[limit])));
        own.iter().for_each(|fault| made(check(call, &good, &[fault])));
        let mut pairs = 0;
        for (k, fault) in own.iter().enumerate() {
            for other in own[k + 1..].iter().filter(|other| other.question != fault.question) {
                made(check(call, &good, &[fault, other]));
                pairs += 1;
            }
        }
        let mut asked: Vec<u8> = own.iter().map(|fault| fault.question).collect();
        asked.sort_unstable();
        asked.dedup();
        println!(
            "{}: {} faults by {asked:?}, {pairs} pairs, {} limits",
            call.name,
            own.len(),
            allowed.len()
        );
    }
    println!("refusals: {wrong} wrong");
    wrong == 0
}

/// `new` reads no state, so a bad one in its slices is none of its questions.
fn applies(call: &Call, fault: &Fault) -> bool {
    let held = fault.part != Part::Crumbs || fault.question != 10;
    call.name != "new" || held
}
