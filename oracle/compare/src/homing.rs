//! The handed-over guide and rebuild and their copies under a script: what their calls answer, as plain
//! values.
use crate::chain::Record;
use crate::guide::Guide;
use crate::reference;
use crate::retelling::entry;
use crate::script::{Call, Script, Thin};
use crate::thinning::{self, Line};
use crate::transcript::{self, Ahead, Answer, Answers, Patterns, Thinned, Told, buffer};
use vana::ride::course;
use vana::state::{RebuildState, State};

/// A guide and its rebuild, which put no questions, and show their private state.
pub trait Unasked {
    /// Performs a call that no question refuses; the chain file has these entries.
    fn perform(&mut self, call: &Call, entries: &[Record]) -> Answer;
    fn answers(&self) -> Answers;
    fn rebuild(&self) -> RebuildState;
    fn state(&self) -> State;

    fn told(&self) -> Told {
        Told { answers: self.answers(), rebuild: self.rebuild() }
    }
}

pub struct Rebuilt<Homing, Rebuild> {
    homing: Homing,
    rebuild: Rebuild,
}

/// What is lent to a script's guide.
pub struct Lent<Crumb> {
    pub crumbs: Vec<Crumb>,
    pub line: Vec<Crumb>,
}

impl<Crumb: Clone + Default> Lent<Crumb> {
    pub fn to(script: &Script) -> Self {
        let room = |places| vec![Crumb::default(); places];
        Self { crumbs: room(script.capacity), line: room(script.room) }
    }
}

fn ahead((end, point): (usize, Option<(f32, f32)>)) -> Ahead {
    let point = point.map(|(east, north)| Patterns([east, north].map(f32::to_bits)));
    Ahead { end, point }
}

/// `thin` alone, by the unchanged Rust.
fn thin(held: &[Patterns<3>], Thin { size, len, tolerance }: Thin) -> Answer {
    let (crumbs, tolerance) = (buffer(held, size), f32::from_bits(tolerance));
    let thinned = Line { crumbs, len, tolerance }.thinned(reference::thin);
    let thinning::Answer { tolerance, passes, .. } = thinned.answer;
    Answer::Thinned(Thinned::of(&thinned.left, tolerance, passes))
}

macro_rules! guide {
    ($copy:ident) => {
        const _: () = {
            use vana::$copy::homing::rebuild::{self, Rebuild};
            use vana::$copy::homing::{Crumb, Event, Guide as Shown, Homing, Mode, probe};

            impl Guide for Homing<'_> {
                fn perform(&mut self, call: &Call) -> Answer {
                    match call {
                        Call::Observe(fix, now_ms) => return event(self.observe(*fix, *now_ms)),
                        Call::SetFollowing(on, now_ms) => {
                            return Answer::Flag(self.set_following(*on, *now_ms));
                        }
                        Call::Reset => self.reset(),
                        Call::Replay(fix, at_ms) => self.replay(*fix, *at_ms),
                        Call::EndReplay => self.end_replay(),
                        Call::SetCourse(places) => {
                            let point = |&(lat_e7, lon_e7): &_| course::Point { lat_e7, lon_e7 };
                            self.set_course(&places.iter().map(point).collect::<Vec<_>>());
                        }
                        Call::SetAutoFollow(on) => self.set_auto_follow(*on),
                        _ => {}
                    }
                    Answer::Nothing
                }

                fn answers(&self) -> Answers {
                    Answers {
                        len: self.len(),
                        following: self.following(),
                        following_course: self.following_course(),
                        course_ahead: self.course_ahead().map(ahead),
                        route_home: self.route_home().map(ahead),
                        heading: self.heading(),
                        way_back: self.way_back(),
                        guide: self.guide().map(shown),
                        crumbs: self.crumbs().iter().map(crumb).collect(),
                        course: self.course().iter().map(crumb).collect(),
                    }
                }
            }

            impl<'a> Rebuilt<Homing<'a>, Rebuild> {
                pub fn new(lent: &'a mut Lent<Crumb>) -> Self {
                    let homing = Homing::new(&mut lent.crumbs).with_line(&mut lent.line);
                    Self { homing, rebuild: Rebuild::new(0, 0) }
                }
            }

            impl Unasked for Rebuilt<Homing<'_>, Rebuild> {
                fn perform(&mut self, call: &Call, entries: &[Record]) -> Answer {
                    let Self { homing, rebuild } = self;
                    match call {
                        Call::Rebuild(recovered, upper) => {
                            *rebuild = Rebuild::new(*recovered, *upper);
                        }
                        Call::Step(upper, budget) => {
                            let read = |slot| entries.get(slot).and_then(entry);
                            return Answer::Flag(rebuild.step(homing, *upper, *budget, read));
                        }
                        Call::Settle(known, utc) => rebuild.settle(homing, known.then_some(*utc)),
                        Call::CaughtUp(upper) => return Answer::Flag(rebuild.caught_up(*upper)),
                        Call::Thin(thinning) => return thin(&homing.answers().crumbs, *thinning),
                        _ => return homing.perform(call),
                    }
                    Answer::Nothing
                }

                fn answers(&self) -> Answers {
                    self.homing.answers()
                }

                fn rebuild(&self) -> RebuildState {
                    rebuild::probe::state(&self.rebuild)
                }

                fn state(&self) -> State {
                    probe::state(&self.homing)
                }
            }

            fn event(event: Option<Event>) -> Answer {
                Answer::Event(match event {
                    None => 0,
                    Some(Event::Following) => 1,
                    Some(Event::OffTrack) => 2,
                    Some(Event::OnTrack) => 3,
                    Some(Event::Dropped) => 4,
                    Some(Event::Arrived) => 5,
                    Some(Event::CourseEnd) => 6,
                })
            }

            fn crumb(&Crumb { east, north, along }: &Crumb) -> Patterns<3> {
                Patterns([east, north, along].map(f32::to_bits))
            }

            fn shown(guide: Shown) -> transcript::Guide {
                let mode = match guide.mode {
                    Mode::Direct => 0,
                    Mode::Track => 1,
                    Mode::OffTrack => 2,
                    Mode::Arrived => 3,
                };
                transcript::Guide {
                    mode,
                    following: guide.following,
                    course: guide.course,
                    course_near: guide.course_near,
                    direct_m: guide.direct_m,
                    track_m: guide.track_m,
                    off_m: guide.off_m,
                    bearing: guide.bearing,
                    heading: guide.heading,
                    arrow: guide.arrow(),
                }
            }
        };
    };
}

guide!(ride);
guide!(added);
guide!(mistaken);
