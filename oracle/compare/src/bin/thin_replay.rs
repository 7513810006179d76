//! Prints the stored input of the proved program `thin_replay`: lines, and what the Rust makes of
//! them. A case is, in words of eight hexadecimal capitals, the capacity, the length and the
//! tolerance, the crumbs, the answer's length, tolerance and passes, and the crumbs left. In an
//! answer a NaN stands as 7FC00000.
use compare::classes::{CLASSES, meets};
use compare::lines::{lines, straight, zigzag};
use compare::options::{none, print, program};
use compare::reference;
use compare::thinning::{Answer, Line, Thinned};
use std::process::ExitCode;

/// Random lines are taken from the first so many, with at most so much room, until there are so many
/// of each class and of each number of passes.
const FIRST: u64 = 20_000;
const ROOM: usize = 24;
const EACH: u64 = 3;

const USAGE: &str = "\
usage: thin_replay
Prints the stored input of the proved program `thin_replay`: lines of crumbs, and what the Rust makes of them.
";

fn main() -> ExitCode {
    program(USAGE, none, |()| print(cases()?).map(|()| true))
}

fn cases() -> Result<String, String> {
    let mut text = String::new();
    let (mut met, mut passes) = ([0; CLASSES.len()], [0; 19]);
    let mut take = |line: Line, each: u64| {
        let thinned = line.clone().thinned(reference::thin);
        let Answer { refused, passes: made, .. } = thinned.answer;
        if refused != 0 {
            return;
        }
        let classes = CLASSES.map(|class| meets(&class, &line, &thinned.answer));
        let rare = classes.iter().zip(met).any(|(&meets, met)| meets && met < each);
        if rare || passes[made] < each {
            met.iter_mut().zip(classes).for_each(|(met, meets)| *met += u64::from(meets));
            passes[made] += 1;
            text += &case(&line, &thinned);
        }
    };
    // Two starred lines of document 01, and one on which the span counts.
    for places in [straight(8, (10.0, 0.0)), zigzag(8, 10_000_000.0), straight(300, (10.0, 5.0))] {
        take(Line::full(&places, 6.0), u64::MAX);
    }
    let random = lines(false, 1);
    for line in (0..FIRST).map(random.at).filter(|line| line.capacity() <= ROOM) {
        take(line, EACH);
    }
    match CLASSES.iter().zip(met).find(|((refused, ..), met)| *refused == 0 && *met == 0) {
        Some(((_, name, _), _)) => Err(format!("no case of {name}")),
        None => Ok(text),
    }
}

fn case(line: &Line, thinned: &Thinned) -> String {
    let answer = thinned.answer;
    let given = [line.capacity() as u32, line.len as u32, line.tolerance.to_bits()];
    let made = [answer.len as u32, answer.tolerance.to_bits(), answer.passes as u32];
    let one_nan = |&x: &f32| if x.is_nan() { f32::from_bits(0x7fc0_0000) } else { x };
    let left: Vec<_> = thinned.left.iter().map(one_nan).collect();
    words(given) + &crumbs(&line.crumbs[..3 * line.len]) + &words(made) + &crumbs(&left)
}

fn crumbs(crumbs: &[f32]) -> String {
    crumbs.chunks(3).map(|crumb| words([0, 1, 2].map(|k| crumb[k].to_bits()))).collect()
}

fn words([a, b, c]: [u32; 3]) -> String {
    format!("{a:08X} {b:08X} {c:08X}\n")
}
