//! What a script's calls answer, as text. Only plain values come in, so that any guide's transcript
//! is made here. Numbers are decimal, an f32 is its pattern in eight hexadecimal capitals, a flag is
//! 0 or 1, and `-` stands for none.
use crate::driver::Tells;
use crate::script::{Call, Question};
use std::fmt::{self, Display};
use vana::state::RebuildState;

/// What a call answers.
#[derive(Clone, Debug, PartialEq)]
pub enum Answer {
    Nothing,
    /// A number below `EVENTS`' length.
    Event(usize),
    Flag(bool),
    Thinned(Thinned),
    /// The number of the question that refused the call.
    Refused(u8),
}

/// What `thin` alone leaves.
#[derive(Clone, Debug, PartialEq)]
pub struct Thinned {
    pub left: Vec<Patterns<3>>,
    /// The tolerance's pattern.
    pub tolerance: u32,
    pub passes: usize,
}

impl Thinned {
    pub fn of(left: &[f32], tolerance: f32, passes: usize) -> Self {
        Self { left: patterns(left), tolerance: tolerance.to_bits(), passes }
    }
}

/// The crumbs of a buffer.
pub fn patterns(numbers: &[f32]) -> Vec<Patterns<3>> {
    let (crumbs, _) = numbers.as_chunks();
    crumbs.iter().map(|crumb| Patterns(crumb.map(f32::to_bits))).collect()
}

/// A buffer of so many numbers: those of the crumbs as far as they go, zeros behind.
pub fn buffer(crumbs: &[Patterns<3>], size: usize) -> Vec<f32> {
    let mut numbers: Vec<f32> =
        crumbs.iter().flat_map(|crumb| crumb.0.map(f32::from_bits)).collect();
    numbers.resize(size, 0.0);
    numbers
}

pub const EVENTS: [&str; 7] =
    ["-", "following", "off_track", "on_track", "dropped", "arrived", "course_end"];
pub const MODES: [&str; 4] = ["direct", "track", "off_track", "arrived"];

/// A script's transcript.
impl Tells for String {
    fn begin(&mut self, told: &Told) {
        *self += &begin(told);
    }

    fn after(&mut self, number: usize, call: &Call, answer: &Answer, told: &Told) {
        *self += &after(number, call, answer, told);
    }

    fn end(&mut self, told: &Told) {
        *self += &end(told);
    }
}

/// What is told behind a call.
#[derive(PartialEq)]
pub struct Told {
    pub answers: Answers,
    pub rebuild: RebuildState,
}

/// What a guide answers to the questions.
#[derive(PartialEq)]
pub struct Answers {
    pub len: usize,
    pub following: bool,
    pub following_course: bool,
    pub course_ahead: Option<Ahead>,
    pub route_home: Option<Ahead>,
    pub heading: Option<u16>,
    /// Metres straight, and over the track.
    pub way_back: Option<(u32, u32)>,
    pub guide: Option<Guide>,
    pub crumbs: Vec<Patterns<3>>,
    pub course: Vec<Patterns<3>>,
}

/// The points ahead up to this end, and then the matched point.
#[derive(PartialEq)]
pub struct Ahead {
    pub end: usize,
    pub point: Option<Patterns<2>>,
}

#[derive(Clone, Copy, PartialEq)]
pub struct Guide {
    /// A number below `MODES`' length.
    pub mode: usize,
    pub following: bool,
    pub course: bool,
    pub course_near: bool,
    pub direct_m: u32,
    pub track_m: u32,
    pub off_m: u32,
    pub bearing: u16,
    pub heading: Option<u16>,
    pub arrow: u16,
}

/// The patterns of a place, or of a crumb: east, north, along.
#[derive(Clone, Copy, Debug, PartialEq)]
pub struct Patterns<const N: usize>(pub [u32; N]);

struct OrNone<T>(Option<T>);

impl<T: Display> Display for OrNone<T> {
    fn fmt(&self, f: &mut fmt::Formatter) -> fmt::Result {
        match &self.0 {
            None => write!(f, "-"),
            Some(value) => write!(f, "{value}"),
        }
    }
}

impl<const N: usize> Display for Patterns<N> {
    fn fmt(&self, f: &mut fmt::Formatter) -> fmt::Result {
        write!(f, "{}", self.0.map(|pattern| format!("{pattern:08X}")).join(" "))
    }
}

impl Display for Ahead {
    fn fmt(&self, f: &mut fmt::Formatter) -> fmt::Result {
        write!(f, "{} {}", self.end, OrNone(self.point))
    }
}

impl Display for Guide {
    fn fmt(&self, f: &mut fmt::Formatter) -> fmt::Result {
        let [following, course, near] =
            [self.following, self.course, self.course_near].map(u8::from);
        write!(f, "{} following {following} course {course} near {near} ", MODES[self.mode])?;
        write!(f, "direct {} track {} off {} ", self.direct_m, self.track_m, self.off_m)?;
        write!(f, "bearing {} heading {} ", self.bearing, OrNone(self.heading))?;
        write!(f, "arrow {}", self.arrow)
    }
}

impl Display for Answer {
    fn fmt(&self, f: &mut fmt::Formatter) -> fmt::Result {
        match self {
            Self::Nothing => Ok(()),
            Self::Event(event) => write!(f, " {}", EVENTS[*event]),
            Self::Flag(flag) => write!(f, " {}", u8::from(*flag)),
            Self::Thinned(Thinned { left, tolerance, passes }) => {
                write!(f, " {} {tolerance:08X} {passes}{}", left.len(), each(left))
            }
            Self::Refused(question) => write!(f, " refused {question}"),
        }
    }
}

impl Answers {
    /// The word of the question and its answer.
    fn tell(&self, question: Question) -> String {
        let answer = match question {
            Question::Len => self.len.to_string(),
            Question::Following => u8::from(self.following).to_string(),
            Question::FollowingCourse => u8::from(self.following_course).to_string(),
            Question::Course => lines(&self.course),
            Question::CourseAhead => OrNone(self.course_ahead.as_ref()).to_string(),
            Question::Crumbs => lines(&self.crumbs),
            Question::WayBack => {
                OrNone(self.way_back.map(|(direct, track)| format!("{direct} {track}"))).to_string()
            }
            Question::Heading => OrNone(self.heading).to_string(),
            Question::RouteHome => OrNone(self.route_home.as_ref()).to_string(),
            Question::Guide => OrNone(self.guide).to_string(),
        };
        format!("{} {answer}", question.word())
    }

    /// Every held crumb, and the whole placed line.
    pub fn dump(&self) -> String {
        format!("{}\n{}", self.tell(Question::Crumbs), self.tell(Question::Course))
    }
}

/// How many, and a line for each.
fn lines(crumbs: &[Patterns<3>]) -> String {
    format!("{}{}", crumbs.len(), each(crumbs))
}

fn each(crumbs: &[Patterns<3>]) -> String {
    crumbs.iter().map(|crumb| format!("\n{crumb}")).collect()
}

/// What stands in one line behind each call that may change something.
pub const STATE: [Question; 7] = [
    Question::Following,
    Question::FollowingCourse,
    Question::CourseAhead,
    Question::RouteHome,
    Question::Heading,
    Question::WayBack,
    Question::Len,
];

/// The lines behind call `number`; what is told after it comes last.
fn after(number: usize, call: &Call, answer: &Answer, told: &Told) -> String {
    match call {
        Call::Ask(question) if !matches!(answer, Answer::Refused(_)) => {
            format!("{number} {}\n", told.answers.tell(*question))
        }
        Call::Dump => format!("{number} dump\n{}\n", told.answers.dump()),
        Call::Ask(_) | Call::Thin(_) | Call::CaughtUp(_) => alone(number, call, answer),
        Call::Spoil(_) | Call::Record(_) | Call::Bytes(_) => alone(number, call, answer),
        Call::Rebuild(..) | Call::Step(..) | Call::Settle(..) => {
            changed(number, call.word(), answer, &told.answers) + &rebuild(&told.rebuild)
        }
        _ => changed(number, call.word(), answer, &told.answers),
    }
}

fn alone(number: usize, call: &Call, answer: &Answer) -> String {
    format!("{number} {}{answer}\n", call.word())
}

/// The lines behind `new`, a script's call 1.
fn begin(told: &Told) -> String {
    changed(1, "new", &Answer::Nothing, &told.answers)
}

fn changed(number: usize, word: &str, answer: &Answer, answers: &Answers) -> String {
    let guide = answers.tell(Question::Guide);
    let state = STATE.map(|question| answers.tell(question)).join(" ");
    format!("{number} {word}{answer}\n{guide}\n{state}\n")
}

fn rebuild(state: &RebuildState) -> String {
    let RebuildState { slot, clock_ms, decided, last_utc } = *state;
    let stage =
        if decided { "decided".to_owned() } else { format!("pending {}", OrNone(last_utc)) };
    format!("rebuild slot {slot} clock {clock_ms} {stage}\n")
}

/// All that is compared behind a call.
pub fn whole(number: usize, word: &str, answer: &Answer, told: &Told) -> String {
    let Told { answers, rebuild: state } = told;
    changed(number, word, answer, answers) + &rebuild(state) + &answers.dump()
}

/// The lines behind a script.
fn end(told: &Told) -> String {
    format!("end\n{}\n", told.answers.dump())
}
