//! Times by the size of a line, drawn as SVG: panels side by side, both axes logarithmic. The file needs
//! nothing else, and is readable on a light and on a dark page.
use crate::grouped;
use std::fmt::Write;

/// What is done at growing sizes of one kind of line.
pub struct Panel {
    /// What is counted along its lower edge.
    pub title: &'static str,
    pub pairs: Vec<Pair>,
}

/// The nanoseconds of both sides by the size.
pub struct Pair {
    /// What is done.
    pub label: &'static str,
    pub proved: Vec<(usize, f64)>,
    pub rust: Vec<(usize, f64)>,
}

const WIDTH: f64 = 900.0;
const HEIGHT: f64 = 460.0;
/// Where the panels lie: from the left and the upper edge, and how large they are.
const LEFT: f64 = 72.0;
const TOP: f64 = 96.0;
const PANEL: (f64, f64) = (350.0, 300.0);
/// From one panel to the next.
const STEP: f64 = 446.0;
/// Between a panel's side and its outermost sizes.
const MARGIN: f64 = 24.0;

const STYLE: &str = "\
text { font: 13px system-ui, sans-serif; fill: #1f2328 }
.head { font-weight: 600 }
.ground { fill: #ffffff }
.soft { fill: #59636e }
.grid { stroke: #d1d9e0; stroke-width: 1 }
.line { fill: none; stroke-width: 2 }
.rust { stroke-dasharray: 6 4 }
.pair0 { stroke: #0969da }
.pair1 { stroke: #bc4c00 }
.ink { stroke: #1f2328 }
circle { stroke-width: 2; fill: #ffffff }
circle.rust { stroke-dasharray: none }
circle.proved.pair0 { fill: #0969da }
circle.proved.pair1 { fill: #bc4c00 }
circle.proved.ink { fill: #1f2328 }
@media (prefers-color-scheme: dark) {
  text { fill: #e6edf3 }
  .ground, circle { fill: #0d1117 }
  .soft { fill: #9198a1 }
  .grid { stroke: #30363d }
  .pair0 { stroke: #58a6ff }
  .pair1 { stroke: #f0883e }
  .ink { stroke: #e6edf3 }
  circle.proved.pair0 { fill: #58a6ff }
  circle.proved.pair1 { fill: #f0883e }
  circle.proved.ink { fill: #e6edf3 }
}
";

/// The numbers from `lowest` to `highest` on a stretch of the page, by their logarithms.
struct Scale {
    lowest: f64,
    highest: f64,
    from: f64,
    to: f64,
}

impl Scale {
    fn at(&self, number: f64) -> f64 {
        let share = (number / self.lowest).ln() / (self.highest / self.lowest).ln();
        self.from + share * (self.to - self.from)
    }
}

pub fn svg(panels: &[Panel]) -> String {
    let mut text = format!(
        "<svg xmlns=\"http://www.w3.org/2000/svg\" viewBox=\"0 0 {WIDTH} {HEIGHT}\" role=\"img\">\n\
         <title>The time of an observe by the size of the line, proved and Rust</title>\n\
         <style>\n{STYLE}</style>\n\
         <rect class=\"ground\" width=\"{WIDTH}\" height=\"{HEIGHT}\" rx=\"6\"/>\n"
    );
    let _ = writeln!(text, "<text class=\"head\" x=\"{LEFT}\" y=\"36\">Time of one observe</text>");
    text += &sample("proved ink", "proved", LEFT + STEP, 32.0);
    text += &sample("rust ink", "Rust", LEFT + STEP + 120.0, 32.0);
    let steps = steps(panels);
    for (k, panel) in panels.iter().enumerate() {
        let _ = writeln!(text, "<g transform=\"translate({} {TOP})\">", LEFT + STEP * k as f64);
        text += &drawn(panel, &steps);
        text += "</g>\n";
    }
    text + "</svg>\n"
}

fn drawn(panel: &Panel, steps: &[f64]) -> String {
    let sizes: Vec<usize> = panel.pairs[0].proved.iter().map(|(size, _)| *size).collect();
    let across = Scale {
        lowest: sizes[0] as f64,
        highest: sizes[sizes.len() - 1] as f64,
        from: MARGIN,
        to: PANEL.0 - MARGIN,
    };
    let up = Scale { lowest: steps[0], highest: steps[steps.len() - 1], from: PANEL.1, to: 0.0 };
    let mut text = grid(&up, steps) + &ticks(&across, &sizes, panel.title);
    for (k, pair) in panel.pairs.iter().enumerate() {
        for (side, points) in [("rust", &pair.rust), ("proved", &pair.proved)] {
            text += &curve(&format!("{side} pair{k}"), points, &across, &up);
        }
        text += &sample(&format!("pair{k}"), pair.label, 190.0 * k as f64, -22.0);
    }
    text
}

/// The lines of the times.
fn grid(up: &Scale, steps: &[f64]) -> String {
    let line = |&step: &f64| {
        let (y, width) = (up.at(step), PANEL.0);
        format!(
            "<line class=\"grid\" x1=\"0\" x2=\"{width}\" y1=\"{y:.1}\" y2=\"{y:.1}\"/>\n\
             <text class=\"soft\" x=\"-8\" y=\"{:.1}\" text-anchor=\"end\">{}</text>\n",
            y + 4.0,
            duration(step)
        )
    };
    steps.iter().map(line).collect()
}

/// The sizes, and what they count.
fn ticks(across: &Scale, sizes: &[usize], title: &str) -> String {
    let tick = |&size: &usize| {
        let (x, height) = (across.at(size as f64), PANEL.1);
        format!(
            "<line class=\"grid\" x1=\"{x:.1}\" x2=\"{x:.1}\" y1=\"0\" y2=\"{height}\"/>\n\
             <text class=\"soft\" x=\"{x:.1}\" y=\"{}\" text-anchor=\"middle\">{}</text>\n",
            height + 20.0,
            grouped(size)
        )
    };
    let title = format!(
        "<text x=\"{}\" y=\"{}\" text-anchor=\"middle\">{title}</text>\n",
        PANEL.0 / 2.0,
        PANEL.1 + 44.0
    );
    sizes.iter().map(tick).collect::<String>() + &title
}

fn curve(class: &str, points: &[(usize, f64)], across: &Scale, up: &Scale) -> String {
    let places: Vec<(f64, f64)> =
        points.iter().map(|(size, time)| (across.at(*size as f64), up.at(*time))).collect();
    let path: Vec<String> = places.iter().map(|(x, y)| format!("{x:.1},{y:.1}")).collect();
    let dots: String = places.iter().map(|(x, y)| dot(class, *x, *y)).collect();
    format!("<polyline class=\"line {class}\" points=\"{}\"/>\n{dots}", path.join(" "))
}

fn dot(class: &str, x: f64, y: f64) -> String {
    format!("<circle class=\"{class}\" cx=\"{x:.1}\" cy=\"{y:.1}\" r=\"4\"/>\n")
}

/// An entry of the legend. Where it stands for a side, it has a side's dot.
fn sample(class: &str, label: &str, x: f64, y: f64) -> String {
    let dot = if class.contains("ink") { dot(class, x + 16.0, y) } else { String::new() };
    let (end, text, foot) = (x + 32.0, x + 40.0, y + 4.5);
    format!(
        "<polyline class=\"line {class}\" points=\"{x},{y} {end},{y}\"/>\n{dot}\
         <text x=\"{text}\" y=\"{foot}\">{label}</text>\n"
    )
}

/// The times at the lines of the grid: 1, 2 and 5 and their tenfolds, around all that is drawn.
fn steps(panels: &[Panel]) -> Vec<f64> {
    let pairs = panels.iter().flat_map(|panel| &panel.pairs);
    let times = pairs.flat_map(|pair| pair.proved.iter().chain(&pair.rust)).map(|(_, time)| *time);
    let (lowest, highest) = times.fold((f64::INFINITY, 0.0f64), |(lowest, highest), time| {
        (lowest.min(time), highest.max(time))
    });
    let all: Vec<f64> =
        (0..12).flat_map(|tens| [1.0, 2.0, 5.0].map(|step| step * 10f64.powi(tens))).collect();
    let first = all.iter().rposition(|step| *step <= lowest).unwrap_or(0);
    let last = all.iter().position(|step| *step >= highest).unwrap_or(all.len() - 1);
    all[first..=last].to_vec()
}

fn duration(nanoseconds: f64) -> String {
    match nanoseconds {
        ..1e3 => format!("{nanoseconds} ns"),
        ..1e6 => format!("{} µs", nanoseconds / 1e3),
        _ => format!("{} ms", nanoseconds / 1e6),
    }
}
