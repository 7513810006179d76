//! The proved guide's calls through the door, and what they answer, as plain values.
use crate::guide::Guide;
use crate::script::{Call, Question, Script};
use crate::transcript::{self, Ahead, Answer, Answers, Patterns, patterns};
use cittumay::{Event, Homing, Mode, NUMBERS, Refusal, STRIDE, WORDS};

/// What is lent to a script's guide.
pub struct Lent {
    crumbs: Vec<f32>,
    line: Vec<f32>,
}

impl Lent {
    pub fn to(script: &Script) -> Self {
        let room = |places| vec![0.0; STRIDE * places];
        Self { crumbs: room(script.capacity), line: room(script.room) }
    }

    /// A script's buffers are of the sizes that question 1 asks for.
    pub fn guide(&mut self) -> Homing<'_> {
        Homing::new(&mut self.crumbs).expect("a script's buffers").with_line(&mut self.line)
    }

    /// A guide whose state was stored, over these buffers.
    pub fn resumed(&mut self, (words, numbers): ([u64; WORDS], [f32; NUMBERS])) -> Homing<'_> {
        Homing::resumed(words, numbers, &mut self.crumbs).with_line(&mut self.line)
    }

    /// The buffers of a guide of the same script.
    pub fn copy_from(&mut self, other: &Self) {
        self.crumbs.copy_from_slice(&other.crumbs);
        self.line.copy_from_slice(&other.line);
    }
}

impl Guide for Homing<'_> {
    fn perform(&mut self, call: &Call) -> Answer {
        let nothing = |()| Answer::Nothing;
        let answer = match call {
            Call::Observe(fix, now_ms) => self.observe(*fix, *now_ms).map(event),
            Call::SetFollowing(on, now_ms) => self.set_following(*on, *now_ms).map(Answer::Flag),
            Call::Reset => self.reset().map(nothing),
            Call::Replay(fix, at_ms) => self.replay(*fix, *at_ms).map(nothing),
            Call::EndReplay => self.end_replay().map(nothing),
            Call::SetCourse(places) => {
                let (lats, lons): (Vec<i32>, Vec<i32>) = places.iter().copied().unzip();
                self.set_course(&lats, &lons).map(nothing)
            }
            Call::SetAutoFollow(on) => self.set_auto_follow(*on).map(nothing),
            Call::Ask(question) => asked(self, *question).map(nothing),
            _ => Ok(Answer::Nothing),
        };
        answer.unwrap_or_else(|Refusal(question)| Answer::Refused(question))
    }

    fn answers(&self) -> Answers {
        answers(self).expect("a guide's own state")
    }
}

/// Whether a question to the guide is taken.
fn asked(homing: &Homing, question: Question) -> Result<(), Refusal> {
    match question {
        Question::Len => homing.len().map(drop),
        Question::Following => homing.following().map(drop),
        Question::FollowingCourse => homing.following_course().map(drop),
        Question::Course => homing.course().map(drop),
        Question::CourseAhead => homing.course_ahead().map(drop),
        Question::Crumbs => homing.crumbs().map(drop),
        Question::WayBack => homing.way_back().map(drop),
        Question::Heading => homing.heading().map(drop),
        Question::RouteHome => homing.route_home().map(drop),
        Question::Guide => homing.guide().map(drop),
    }
}

fn answers(homing: &Homing) -> Result<Answers, Refusal> {
    Ok(Answers {
        len: homing.len()?,
        following: homing.following()?,
        following_course: homing.following_course()?,
        course_ahead: homing.course_ahead()?.map(ahead),
        route_home: homing.route_home()?.map(ahead),
        heading: homing.heading()?,
        way_back: homing.way_back()?,
        guide: homing.guide()?.map(shown).transpose()?,
        crumbs: patterns(homing.crumbs()?),
        course: patterns(homing.course()?),
    })
}

fn event(event: Option<Event>) -> Answer {
    Answer::Event(match event {
        None => 0,
        Some(Event::Following) => 1,
        Some(Event::OffTrack) => 2,
        Some(Event::OnTrack) => 3,
        Some(Event::Dropped) => 4,
        Some(Event::Arrived) => 5,
        Some(Event::CourseEnd) => 6,
    })
}

fn ahead((end, point): cittumay::Ahead) -> Ahead {
    let point = point.map(|(east, north)| Patterns([east, north].map(f32::to_bits)));
    Ahead { end, point }
}

fn shown(guide: cittumay::Guide) -> Result<transcript::Guide, Refusal> {
    let mode = match guide.mode {
        Mode::Direct => 0,
        Mode::Track => 1,
        Mode::OffTrack => 2,
        Mode::Arrived => 3,
    };
    Ok(transcript::Guide {
        mode,
        following: guide.following,
        course: guide.course,
        course_near: guide.course_near,
        direct_m: guide.direct_m,
        track_m: guide.track_m,
        off_m: guide.off_m,
        bearing: guide.bearing,
        heading: guide.heading,
        arrow: guide.arrow()?,
    })
}
