//! What the machine does while something is measured.
use std::fs;

/// The machine at one moment; what cannot be read is left out.
pub struct Moment {
    /// The load average of the last minute.
    load: Option<f64>,
    work: Option<Work>,
}

/// What the processors did since they were started, in ticks.
struct Work {
    processors: usize,
    busy: f64,
    all: f64,
}

impl Moment {
    pub fn now() -> Self {
        Self { load: load(), work: work() }
    }

    /// The load average at this moment and now, and how many processors were busy meanwhile.
    pub fn until_now(&self) -> [String; 2] {
        let now = Self::now();
        let load = [self.load, now.load].map(|load| told(load, 2)).join(", ");
        let busy = self.work.as_ref().zip(now.work.as_ref());
        [load, told(busy.map(|(before, after)| after.busy_since(before)), 1)]
    }
}

impl Work {
    fn busy_since(&self, before: &Self) -> f64 {
        let share = (self.busy - before.busy) / (self.all - before.all).max(1.0);
        share * self.processors as f64
    }
}

fn told(number: Option<f64>, digits: usize) -> String {
    number.map_or_else(|| "-".to_owned(), |number| format!("{number:.digits$}"))
}

fn load() -> Option<f64> {
    fs::read_to_string("/proc/loadavg").ok()?.split(' ').next()?.parse().ok()
}

/// The first line of /proc/stat is of all processors, and a line of each follows: ticks for users, for
/// nice users and for the system, idle ones, waiting ones, and more.
fn work() -> Option<Work> {
    let text = fs::read_to_string("/proc/stat").ok()?;
    let processors = text.lines().skip(1).take_while(|line| line.starts_with("cpu")).count();
    let words = text.lines().next()?.strip_prefix("cpu ")?.split_whitespace();
    let ticks: Vec<f64> = words.map_while(|word| word.parse().ok()).collect();
    // Behind the eighth stand guests, whose ticks are counted among the users' already.
    let all: f64 = ticks.iter().take(8).sum();
    Some(Work { processors, busy: all - ticks.get(3)? - ticks.get(4)?, all })
}
