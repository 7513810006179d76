//! What `examples/ride.c` has to print, by the Rust.
use compare::options::{none, print, program};
use std::fmt::Write;
use std::process::ExitCode;
use vana::ride::homing::{Crumb, Event, Homing};

const USAGE: &str = "\
usage: home
Prints by the Rust what examples/ride.c has to print: a ride north, round, and home over its own breadcrumb.
";

fn main() -> ExitCode {
    program(USAGE, none, |()| print(ride().map_err(|error| error.to_string())?).map(|()| true))
}

fn ride() -> Result<String, std::fmt::Error> {
    let mut text = String::new();
    let mut crumbs = [Crumb::default(); 512];
    let mut homing = Homing::new(&mut crumbs);
    for s in 0..=200 {
        let lat = 900 * if s < 100 { s } else { 200 - s };
        let event = homing.observe(Some((lat, 0)), 1_000 * s as u64);
        match event {
            Some(Event::Following) => writeln!(text, "{s} s: following home")?,
            Some(Event::Arrived) => writeln!(text, "{s} s: home")?,
            _ => {}
        }
        if let Some(guide) = homing.guide().filter(|_| s % 20 == 0) {
            writeln!(text, "{s} s: {} m home, arrow {}", guide.track_m, guide.arrow())?;
        }
    }
    Ok(text)
}
