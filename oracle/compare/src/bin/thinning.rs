//! Compares `thin` on lines of crumbs.
use compare::classes::Met;
use compare::inputs::Inputs;
use compare::lines::lines;
use compare::options::{Options, program};
use compare::reference::may_thin;
use compare::thinning::{Answer, Line};
use compare::value::{difference, equal};
use compare::{Point, proved, reference};
use std::process::ExitCode;

const USAGE: &str = "\
usage: thinning [--full] [--seed N] [--self-test]
Compares the proved `thin` with the Rust's on lines of crumbs.
  --full        on 2^24 lines, in place of 2^20
  --seed N      other random lines (1)
  --self-test   mistakes in the place of the Rust; each has to be found
";

fn main() -> ExitCode {
    program(USAGE, Options::read, |Options { full, seed, self_test }| {
        let lines = lines(full, seed);
        Ok(if self_test { mistakes(&lines) } else { thinnings(&lines) })
    })
}

/// Whether the proved thinning equals the Rust's, and every class of calls is met.
fn thinnings(lines: &Inputs<impl Fn(u64) -> Line + Sync>) -> bool {
    let met = Met::default();
    let ours = |line: Line| line.thinned(proved::thin);
    let theirs = |line: Line| {
        let thinned = line.clone().thinned(reference::thin);
        met.note(&line, &thinned.answer);
        thinned
    };
    equal("thin", lines, ours, theirs) && met.print()
}

/// The rules of thinning, to be bent.
#[derive(Clone, Copy)]
struct Rules {
    may: fn(usize, usize, f32) -> bool,
    target: fn(usize) -> usize,
    /// The tolerance of the first pass, over the one given.
    first: f32,
    measuring: usize,
    span: usize,
    off: fn([Point; 3]) -> f32,
    within: fn(f32, f32) -> bool,
    stops_at_a_stray: bool,
}

const RULES: Rules = Rules {
    may: may_thin,
    target: |capacity| capacity * 3 / 4,
    first: 1.0,
    measuring: 17,
    span: 256,
    off: reference::off_segment,
    within: |off, t| off <= t,
    stops_at_a_stray: true,
};

impl Rules {
    fn thin(&self, crumbs: &mut [f32], len: usize, tolerance: f32) -> Answer {
        if !(self.may)(crumbs.len(), len, tolerance) {
            return Answer::refusal(9, tolerance);
        }
        let crumbs: &mut [[f32; 3]] = crumbs.as_chunks_mut().0;
        let (mut line, mut tolerance) = (crumbs[..len].to_vec(), tolerance * self.first);
        let mut passes = 1;
        loop {
            line = self.pass(&line, tolerance, passes > self.measuring);
            if line.len() <= (self.target)(crumbs.len()) || passes > self.measuring {
                break;
            }
            (passes, tolerance) = (passes + 1, tolerance * 2.0);
        }
        crumbs[..line.len()].copy_from_slice(&line);
        Answer { refused: 0, len: line.len(), tolerance, passes }
    }

    fn pass(&self, line: &[[f32; 3]], tolerance: f32, halve: bool) -> Vec<[f32; 3]> {
        if line.len() <= 2 {
            return line.to_vec();
        }
        let (last, mut anchor) = (line.len() - 1, 0);
        let mut kept = vec![line[0]];
        while anchor < last {
            let reach = if halve { 2 } else { self.reach(&line[anchor..], tolerance) };
            anchor = last.min(anchor + reach);
            kept.push(line[anchor]);
        }
        kept
    }

    /// How far the chord from the first goes.
    fn reach(&self, line: &[[f32; 3]], tolerance: f32) -> usize {
        let place = |k: usize| (line[k][0], line[k][1]);
        let off = |j, end| (self.off)([place(j), place(0), place(end)]);
        let mut reach = 1;
        for end in 2..line.len().min(self.span + 1) {
            if (1..end).all(|j| (self.within)(off(j, end), tolerance)) {
                reach = end;
            } else if self.stops_at_a_stray {
                break;
            }
        }
        reach
    }
}

fn off_in_f64(places: [Point; 3]) -> f32 {
    let [p, a, b] = places.map(|(east, north)| (f64::from(east), f64::from(north)));
    let (dx, dy) = (b.0 - a.0, b.1 - a.1);
    let t = ((p.0 - a.0) * dx + (p.1 - a.1) * dy) / (dx * dx + dy * dy);
    let t = if dx == 0.0 && dy == 0.0 { 0.0 } else { t.clamp(0.0, 1.0) };
    (a.0 + t * dx - p.0).hypot(a.1 + t * dy - p.1) as f32
}

/// Whether each mistake is found, and none where there is none.
fn mistakes(lines: &Inputs<impl Fn(u64) -> Line + Sync>) -> bool {
    type Thin<'a> = &'a (dyn Fn(&mut [f32], usize, f32) -> Answer + Sync);
    let find = |name, theirs: Thin| {
        let ours = |line: Line| line.thinned(proved::thin);
        let found = difference(lines, ours, |line| line.thinned(theirs));
        match &found {
            None => println!("{name}: equal"),
            Some(difference) => println!("{name}: {:.120}", difference.to_string()),
        }
        found.is_some()
    };
    let bent = |name, rules: Rules| find(name, &|crumbs, len, t| rules.thin(crumbs, len, t));
    let may = |name, may: fn(usize, usize, f32) -> bool| bent(name, Rules { may, ..RULES });
    let then = |name, refused, spoil: fn(&mut [f32], usize, &mut Answer)| {
        find(name, &|crumbs, len, tolerance| {
            let mut answer = reference::thin(crumbs, len, tolerance);
            if answer.refused == refused {
                spoil(crumbs, len, &mut answer);
            }
            answer
        })
    };
    let found = [
        bent("span 255", Rules { span: 255, ..RULES }),
        bent("span 257", Rules { span: 257, ..RULES }),
        bent("halving at pass 17", Rules { measuring: 16, ..RULES }),
        bent("halving at pass 19", Rules { measuring: 18, ..RULES }),
        bent("`<` for `<=`", Rules { within: |off, t| off < t, ..RULES }),
        bent("a NaN within", Rules { within: |off, t| off <= t || off.is_nan(), ..RULES }),
        bent("ends tried past a stray", Rules { stops_at_a_stray: false, ..RULES }),
        bent("off the start", Rules { off: |[p, a, _]| reference::distance([p, a]), ..RULES }),
        bent("off not rounded on the way", Rules { off: off_in_f64, ..RULES }),
        bent("doubled before the first pass", Rules { first: 2.0, ..RULES }),
        bent("target rounded up", Rules { target: |capacity| capacity - capacity / 4, ..RULES }),
        may("a rest of the buffer", |size, len, t| may_thin(size / 3 * 3, len, t)),
        may("C 2", |size, len, t| may_thin(size.max(9), len, t) && size >= 6),
        may("C 4,097", |size, len, t| may_thin(if size == 12_291 { 12_288 } else { size }, len, t)),
        may("tolerance NaN", |size, len, t| may_thin(size, len, if t.is_nan() { 6.0 } else { t })),
        may("tolerance below 0", |size, len, t| may_thin(size, len, t.abs())),
        may("tolerance -0 refused", |size, len, t| may_thin(size, len, t) && t.is_sign_positive()),
        may("tolerance infinity refused", |size, len, t| may_thin(size, len, t) && t.is_finite()),
        may("always refused", |_, _, _| false),
        then("refused with 1", 9, |_, _, answer| answer.refused = 1),
        then("a refusal that clears the buffer", 9, |crumbs, _, _| crumbs.fill(0.0)),
        then("cleared behind the line", 0, |crumbs, len, _| crumbs[3 * len..].fill(0.0)),
        then("the last lost", 0, |_, _, answer| answer.len = answer.len.saturating_sub(1)),
        then("passes counted from 0", 0, |_, _, answer| answer.passes -= 1),
        then("doubled after the last pass", 0, |_, _, answer| answer.tolerance *= 2.0),
        then("the last along put to 0", 0, |crumbs, _, answer| {
            if answer.len > 0 {
                crumbs[3 * answer.len - 1] = 0.0;
            }
        }),
        find("a longer line cut to C", &|crumbs, len, tolerance| {
            reference::thin(crumbs, len.min(crumbs.len() / 3), tolerance)
        }),
        find("nothing touched", &|crumbs, len, tolerance| {
            reference::thin(&mut crumbs.to_vec(), len, tolerance)
        }),
    ];
    let missed = found.iter().filter(|&&found| !found).count();
    println!("{} of {} mistakes found", found.len() - missed, found.len());
    missed == 0 && !bent("no mistake", RULES)
}
