//! A fixed ride through the door, for counting the instructions of the proved code.
use cittumay::{Homing, Rebuild, Refusal, STRIDE, thin};
use compare::guide::Guide;
use compare::options::{Words, print, program, unknown};
use compare::retelling::CRUMBS;
use compare::thinning::Line;
use compare::trials::{self, Kept, Proved, Trial};
use compare::{chain, lines, longest};
use std::process::ExitCode;

/// Slots of a step of the rebuild.
const BUDGET: usize = 341;

const USAGE: &str = "\
usage: fixed-ride [--list] [PART..]
Performs a ride through the door that is always the same, and tells how many crumbs are left behind each of its parts.
  --list   only prints the names of the parts
  PART..   only these parts
";

/// A part of the ride, by its name; how many crumbs it leaves.
struct Part {
    name: String,
    perform: Box<dyn FnOnce() -> Result<usize, Refusal>>,
}

fn main() -> ExitCode {
    program(USAGE, read, |(list, chosen)| {
        for Part { name, perform } in parts() {
            if !chosen.is_empty() && !chosen.contains(&name) {
                continue;
            }
            if list {
                print(format!("{name}\n"))?;
                continue;
            }
            let left = perform().map_err(|Refusal(number)| format!("{name}: refused {number}"))?;
            print(format!("{name}: {left} crumbs\n"))?;
        }
        Ok(true)
    })
}

fn read(words: &mut Words) -> Result<(bool, Vec<String>), String> {
    let (mut list, mut chosen) = (false, Vec::new());
    let names: Vec<String> = parts().into_iter().map(|part| part.name).collect();
    for word in words {
        match word.as_str() {
            "--list" => list = true,
            _ if names.contains(&word) => chosen.push(word),
            _ => unknown(&word)?,
        }
    }
    Ok((list, chosen))
}

fn parts() -> Vec<Part> {
    let rides = [
        trials::recording(60),
        trials::recording(600),
        trials::thinning(),
        trials::homing(600),
        trials::turning_round(),
        trials::leaving(300),
        trials::following(2_048, 0),
        trials::following(2_048, 120),
        trials::ending(2_048),
        trials::near(2_048, false),
        trials::near(2_048, true),
    ];
    let ride =
        |trial: Trial| Part { name: trial.name.clone(), perform: Box::new(move || ridden(&trial)) };
    let mut parts: Vec<Part> = rides.map(ride).into();
    parts.push(Part { name: "thin".to_owned(), perform: Box::new(thinned) });
    parts.push(Part { name: "rebuild".to_owned(), perform: Box::new(rebuilt) });
    parts
}

fn ridden(trial: &Trial) -> Result<usize, Refusal> {
    let mut kept = Proved::ridden(&trial.script);
    let mut guide = kept.again();
    trial.fixes.iter().for_each(|fix| drop(guide.perform(fix)));
    guide.len()
}

fn thinned() -> Result<usize, Refusal> {
    let mut left = 0;
    for (_, _, places) in lines::measured(4_096) {
        let mut line = Line::full(&places, 6.0);
        left += thin(&mut line.crumbs, line.len, line.tolerance)?.len;
    }
    Ok(left)
}

fn rebuilt() -> Result<usize, Refusal> {
    let file = longest::file();
    let chain = chain::read(&file).map_err(Refusal)?;
    let upper = chain.entries.len();
    let mut crumbs = vec![0.0; STRIDE * CRUMBS];
    let mut guide = Homing::new(&mut crumbs)?;
    let mut rebuild = Rebuild::new(chain.recovered, upper)?;
    while !rebuild.caught_up(upper)? {
        rebuild.step(&mut guide, &file, upper, BUDGET)?;
    }
    rebuild.settle(&mut guide, None)?;
    guide.len()
}
