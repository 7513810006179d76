//! What `thin` is called with, and what it makes of it.
use crate::Point;
use crate::value::Value;

/// A call of `thin`.
#[derive(Clone)]
pub struct Line {
    /// The lent buffer, three numbers a crumb: east, north, along.
    pub crumbs: Vec<f32>,
    pub len: usize,
    pub tolerance: f32,
}

/// An answer of `thin`.
#[derive(Clone, Copy)]
pub struct Answer {
    /// 0, or the number of the refusal.
    pub refused: u8,
    pub len: usize,
    pub tolerance: f32,
    pub passes: usize,
}

/// An answer, and the numbers of the buffer that the rules speak of.
#[derive(Clone)]
pub struct Thinned {
    pub answer: Answer,
    /// The crumbs left.
    pub left: Vec<f32>,
    /// Behind the crumbs that came in; on a refusal the whole buffer.
    pub behind: Vec<u32>,
}

impl Line {
    /// A buffer full of crumbs, along counting them.
    pub fn full(places: &[Point], tolerance: f32) -> Self {
        let crumb = |(k, &(east, north)): (usize, &Point)| [east, north, k as f32];
        let crumbs = places.iter().enumerate().flat_map(crumb).collect();
        Self { crumbs, len: places.len(), tolerance }
    }

    pub fn capacity(&self) -> usize {
        self.crumbs.len() / 3
    }

    /// What a thinning makes of the line.
    pub fn thinned(mut self, thin: impl Fn(&mut [f32], usize, f32) -> Answer) -> Thinned {
        let answer = thin(&mut self.crumbs, self.len, self.tolerance);
        let came = if answer.refused == 0 { self.len.saturating_mul(3) } else { 0 };
        let behind = self.crumbs.iter().skip(came).map(|x| x.to_bits()).collect();
        self.crumbs.truncate(answer.len.saturating_mul(3));
        Thinned { answer, left: self.crumbs, behind }
    }
}

impl Answer {
    /// What `passes` holds before a call, and behind a refused one.
    pub const NO_PASSES: usize = 99;

    pub fn refusal(number: u8, tolerance: f32) -> Self {
        Self { refused: number, len: 0, tolerance, passes: Self::NO_PASSES }
    }
}

impl Value for Line {
    fn same(&self, other: &Self) -> bool {
        self.len == other.len
            && self.tolerance.same(&other.tolerance)
            && self.crumbs.same(&other.crumbs)
    }
    fn hex(&self) -> String {
        let Self { crumbs, len, tolerance } = self;
        let (capacity, rest) = (crumbs.len() / 3, crumbs.len() % 3);
        let (tolerance, crumbs) = (tolerance.hex(), crumbs.hex());
        format!("C {capacity} rest {rest} len {len} tolerance {tolerance} crumbs {crumbs}")
    }
}

impl Value for Thinned {
    fn same(&self, other: &Self) -> bool {
        let (ours, theirs) = (&self.answer, &other.answer);
        ours.refused == theirs.refused
            && ours.len == theirs.len
            && ours.tolerance.same(&theirs.tolerance)
            && ours.passes == theirs.passes
            && self.left.same(&other.left)
            && self.behind == other.behind
    }
    fn hex(&self) -> String {
        let Answer { refused, len, tolerance, passes } = self.answer;
        let (tolerance, left, behind) = (tolerance.hex(), self.left.hex(), self.behind.hex());
        format!(
            "refused {refused} left {len} tolerance {tolerance} passes {passes} \
             crumbs {left} behind {behind}"
        )
    }
}
