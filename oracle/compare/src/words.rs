//! Where the fields of a guide's state stand among its words and numbers, and those of a rebuild's among its
//! words: the proved code's own names; and what of a state is replaced so that question 10 refuses it.
include!("../../../crates/stored/src/layout.rt");

pub const HEADING: usize = HEADING_KNOWN + 1;
pub const UTC: usize = UTC_KNOWN + 1;

/// Words and a number of a guide's state, each with its place.
#[derive(Default)]
pub struct Replaced {
    pub words: &'static [(usize, u64)],
    pub number: Option<(usize, f32)>,
}

impl Replaced {
    /// In the `which`-th way that question 10 refuses.
    pub fn by(which: u8) -> Self {
        let words = |words| Self { words, number: None };
        let number = |at, number| Self { words: &[], number: Some((at, number)) };
        match which {
            0 => words(&[(RETRACE, 8)]),
            1 => words(&[(WINDOW_LEN, 49)]),
            2 => number(TOLERANCE, -1.0),
            3 => number(EAST_PER_E7, 1.0),
            4 => words(&[(HEADING_KNOWN, 1), (HEADING, 4_096)]),
            5 => number(COURSE_ALONG, -1.0),
            _ => words(&[(LINE, 1), (SEGMENT, 0)]),
        }
    }
}
