//! What a fix changed, and the way back as of the last one.
use crate::{GUIDE, Refusal, door, taken};

#[derive(Clone, Copy, Debug, PartialEq, Eq)]
pub enum Mode {
    /// Straight to the start.
    Direct,
    /// Along the followed line, on it.
    Track,
    /// Following, but off the line: back to it.
    OffTrack,
    /// At the start.
    Arrived,
}

#[derive(Clone, Copy, Debug, PartialEq, Eq)]
pub enum Event {
    /// Following started by itself.
    Following,
    /// Left the line while following, or still off the breadcrumb a while later.
    OffTrack,
    /// Back on the line.
    OnTrack,
    /// So far off the line that following stopped.
    Dropped,
    Arrived,
    /// At the end of the course.
    CourseEnd,
}

impl Event {
    pub(crate) fn of(number: u8) -> Option<Self> {
        match number {
            1 => Some(Self::Following),
            2 => Some(Self::OffTrack),
            3 => Some(Self::OnTrack),
            4 => Some(Self::Dropped),
            5 => Some(Self::Arrived),
            6 => Some(Self::CourseEnd),
            _ => None,
        }
    }
}

#[derive(Clone, Copy, Debug, PartialEq, Eq)]
pub struct Guide {
    pub mode: Mode,
    /// Following the breadcrumb back, or the course, whatever `mode` says now.
    pub following: bool,
    /// Following the course, towards its end.
    pub course: bool,
    /// Not following: the course is loaded and near.
    pub course_near: bool,
    /// Straight to the start, or to the course's end while following it.
    pub direct_m: u32,
    /// Back along the breadcrumb, or on along the course, from here.
    pub track_m: u32,
    /// From the line, while following.
    pub off_m: u32,
    /// Where to ride, in 4096ths of a turn.
    pub bearing: u16,
    /// The way the rider is riding, while moving.
    pub heading: Option<u16>,
}

impl Guide {
    /// The arrow's angle: relative to the heading, or north up without one.
    pub fn arrow(&self) -> Result<u16, Refusal> {
        let mut arrow = 0;
        taken(door::arrow(&self.numbers(), &mut arrow), ())?;
        Ok(arrow)
    }

    pub(crate) fn of(numbers: [u32; GUIDE]) -> Self {
        let [mode, following, course, near, direct_m, track_m, off_m, bearing, known, heading] =
            numbers;
        Self {
            mode: match mode {
                0 => Mode::Direct,
                1 => Mode::Track,
                2 => Mode::OffTrack,
                _ => Mode::Arrived,
            },
            following: following != 0,
            course: course != 0,
            course_near: near != 0,
            direct_m,
            track_m,
            off_m,
            bearing: bearing as u16,
            heading: (known != 0).then_some(heading as u16),
        }
    }

    fn numbers(&self) -> [u32; GUIDE] {
        [
            self.mode as u32,
            self.following.into(),
            self.course.into(),
            self.course_near.into(),
            self.direct_m,
            self.track_m,
            self.off_m,
            self.bearing.into(),
            self.heading.is_some().into(),
            self.heading.unwrap_or(0).into(),
        ]
    }
}
