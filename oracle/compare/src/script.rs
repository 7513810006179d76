//! Scripts of calls, as text: a call a line, a word and decimal integers behind it. `new` begins a
//! script, `#` a remark.
mod read;

use crate::Place;
use crate::chain::{Raw, RawSample};
use std::fmt;

pub use read::read;

/// A guide's calls, from `new` on, with the lines between them that prepare a call.
#[derive(Clone)]
pub struct Script {
    /// Crumbs that the lent buffer has room for.
    pub capacity: usize,
    /// Places that the lent line has room for.
    pub room: usize,
    pub calls: Vec<Call>,
}

#[derive(Clone, Debug, PartialEq)]
pub enum Call {
    Reset,
    /// The fix, or none, and the clock.
    Observe(Option<Place>, u64),
    Replay(Place, u64),
    EndReplay,
    SetCourse(Vec<Place>),
    SetAutoFollow(bool),
    SetFollowing(bool, u64),
    Ask(Question),
    /// Crumbs and course.
    Dump,
    Thin(Thin),
    /// The recovered ride, and the upper slot.
    Rebuild(u32, usize),
    /// The upper slot, and the budget.
    Step(usize, usize),
    /// Whether the time is known, and the time.
    Settle(bool, u64),
    CaughtUp(usize),
    /// No call: the next one is given this in place of its own.
    Spoil(Spoil),
    /// No call: a record behind the chain file.
    Record(Raw),
    /// No call: the chain file's length from here on.
    Bytes(usize),
}

/// `thin` on the held crumbs in a buffer of its own.
#[derive(Clone, Copy, Debug, PartialEq)]
pub struct Thin {
    /// Numbers of the buffer.
    pub size: usize,
    pub len: usize,
    /// The tolerance's pattern.
    pub tolerance: u32,
}

/// What a question refuses: of the crumb buffer, the line or the state the `which`-th.
#[derive(Clone, Copy, Debug, PartialEq)]
pub struct Spoil {
    pub question: u8,
    pub which: u8,
}

impl Spoil {
    /// The questions, and how many ways there are to be refused by each.
    pub const WAYS: [(u8, u8); 3] = [(1, 2), (4, 2), (10, 7)];
}

/// The calls that change nothing.
#[derive(Clone, Copy, Debug, PartialEq)]
pub enum Question {
    Len,
    Following,
    FollowingCourse,
    Course,
    CourseAhead,
    Crumbs,
    WayBack,
    Heading,
    RouteHome,
    Guide,
}

impl Question {
    pub const ALL: [Self; 10] = [
        Self::Len,
        Self::Following,
        Self::FollowingCourse,
        Self::Course,
        Self::CourseAhead,
        Self::Crumbs,
        Self::WayBack,
        Self::Heading,
        Self::RouteHome,
        Self::Guide,
    ];

    pub fn word(self) -> &'static str {
        match self {
            Self::Len => "len",
            Self::Following => "following",
            Self::FollowingCourse => "following_course",
            Self::Course => "course",
            Self::CourseAhead => "course_ahead",
            Self::Crumbs => "crumbs",
            Self::WayBack => "way_back",
            Self::Heading => "heading",
            Self::RouteHome => "route_home",
            Self::Guide => "guide",
        }
    }
}

impl Call {
    pub fn word(&self) -> &'static str {
        match self {
            Self::Reset => "reset",
            Self::Observe(Some(_), _) => "observe",
            Self::Observe(None, _) => "missing",
            Self::Replay(..) => "replay",
            Self::EndReplay => "end_replay",
            Self::SetCourse(_) => "set_course",
            Self::SetAutoFollow(_) => "set_auto_follow",
            Self::SetFollowing(..) => "set_following",
            Self::Ask(question) => question.word(),
            Self::Dump => "dump",
            Self::Thin(_) => "thin",
            Self::Rebuild(..) => "rebuild",
            Self::Step(..) => "step",
            Self::Settle(..) => "settle",
            Self::CaughtUp(_) => "caught_up",
            Self::Spoil(_) => "spoil",
            Self::Record(_) => "record",
            Self::Bytes(_) => "bytes",
        }
    }

    /// The line is no call, but prepares one.
    pub fn prepares(&self) -> bool {
        matches!(self, Self::Spoil(_) | Self::Record(_) | Self::Bytes(_))
    }
}

impl fmt::Display for Call {
    fn fmt(&self, f: &mut fmt::Formatter) -> fmt::Result {
        write!(f, "{}", self.word())?;
        match self {
            Self::Observe(Some((lat, lon)), now_ms) | Self::Replay((lat, lon), now_ms) => {
                write!(f, " {lat} {lon} {now_ms}")
            }
            Self::Observe(None, now_ms) => write!(f, " {now_ms}"),
            Self::SetCourse(places) => {
                places.iter().try_for_each(|(lat, lon)| write!(f, " {lat} {lon}"))
            }
            Self::SetAutoFollow(on) => write!(f, " {}", u8::from(*on)),
            Self::SetFollowing(on, now_ms) => write!(f, " {} {now_ms}", u8::from(*on)),
            Self::Thin(Thin { size, len, tolerance }) => write!(f, " {size} {len} {tolerance}"),
            Self::Rebuild(recovered, upper) => write!(f, " {recovered} {upper}"),
            Self::Step(upper, budget) => write!(f, " {upper} {budget}"),
            Self::Settle(known, utc_ms) => write!(f, " {} {utc_ms}", u8::from(*known)),
            Self::CaughtUp(number) | Self::Bytes(number) => write!(f, " {number}"),
            Self::Spoil(Spoil { question, which }) => write!(f, " {question} {which}"),
            Self::Record(record) => write!(f, " {}", Numbers(record)),
            Self::Reset | Self::EndReplay | Self::Ask(_) | Self::Dump => Ok(()),
        }
    }
}

/// A record's numbers. Samples of zeros at its end are left out.
struct Numbers<'a>(&'a Raw);

impl fmt::Display for Numbers<'_> {
    fn fmt(&self, f: &mut fmt::Formatter) -> fmt::Result {
        let Raw { next, ride, kind, count, samples } = self.0;
        write!(f, "{next} {ride} {kind} {count}")?;
        let told = samples.iter().rposition(|sample| *sample != RawSample::default());
        let told = &samples[..told.map_or(0, |last| last + 1)];
        told.iter().try_for_each(|RawSample { flags, place: (lat, lon), utc_ms }| {
            write!(f, " {flags} {lat} {lon} {utc_ms}")
        })
    }
}

impl fmt::Display for Script {
    fn fmt(&self, f: &mut fmt::Formatter) -> fmt::Result {
        writeln!(f, "new {} {}", self.capacity, self.room)?;
        self.calls.iter().try_for_each(|call| writeln!(f, "{call}"))
    }
}
