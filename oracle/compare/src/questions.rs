//! Document 01's questions to a script's call. The Rust puts none.
use crate::Place;
use crate::chain::{self, Record};
use crate::guide::Performs;
use crate::homing::Unasked;
use crate::prepared::Prepared;
use crate::reference::may_thin;
use crate::script::{Call, Question, Script, Thin};
use crate::transcript::{Answer, Told};

/// A guide that is asked them first.
pub struct Asked<G> {
    guide: G,
    room: usize,
    prepared: Prepared,
}

impl<G> Asked<G> {
    pub fn new(script: &Script, guide: G) -> Self {
        Self { guide, room: script.room, prepared: Prepared::default() }
    }
}

impl<G: Unasked> Performs for Asked<G> {
    fn perform(&mut self, call: &Call) -> Answer {
        self.prepared.take_up(call).expect("a line that may stand here");
        let Verdict { noes, entries } = verdict(call, &self.prepared, self.room);
        let answer = match noes.first() {
            Some(question) => Answer::Refused(*question),
            None => self.guide.perform(call, &entries),
        };
        self.prepared.spent(call);
        answer
    }

    fn told(&self) -> Told {
        self.guide.told()
    }
}

/// Whether a call is given what a question is put to: 1 the crumb buffer, 4 the line, 10 the state.
pub fn is_given(call: &Call, question: u8) -> bool {
    use Call::{Ask, CaughtUp, Dump, Observe, Rebuild, Replay};
    use Call::{SetAutoFollow, SetCourse, SetFollowing, Step, Thin};
    match (question, call) {
        (1 | 4, Observe(..) | SetFollowing(..)) => true,
        (1, Replay(..) | SetAutoFollow(_) | Step(..)) => true,
        (1, Ask(Question::Crumbs | Question::WayBack)) => true,
        (4, SetCourse(_) | Ask(Question::Course)) => true,
        (10, Dump | Thin(_) | Rebuild(..) | CaughtUp(_)) => false,
        (10, _) => !call.prepares(),
        _ => false,
    }
}

/// What comes of the questions to a call.
pub struct Verdict {
    /// Those that say no, in document 01's order; of the chain file's and of the places' the first.
    pub noes: Vec<u8>,
    /// The entries of the chain file, where the call is given that.
    pub entries: Vec<Record>,
}

/// The line has room for so many places.
pub fn verdict(call: &Call, prepared: &Prepared, room: usize) -> Verdict {
    let many = matches!(call, Call::SetCourse(places) if places.len() > room);
    let spoiled =
        |question: &u8| is_given(call, *question) && prepared.spoiled(*question).is_some();
    let mut noes: Vec<u8> =
        [1, 10, 4].into_iter().filter(|no| spoiled(no) || *no == 4 && many).collect();
    let chain = match call {
        Call::Step(..) => chain::read(&prepared.file).map(|chain| chain.entries),
        _ => Ok(Vec::new()),
    };
    noes.extend(own(call).err());
    noes.extend(chain.as_ref().err());
    Verdict { noes, entries: chain.unwrap_or_default() }
}

/// Of the places that a call is given, or of a thinning.
fn own(call: &Call) -> Result<(), u8> {
    match call {
        Call::Observe(Some(place), _) | Call::Replay(place, _) => asks(*place),
        Call::SetCourse(places) => places.iter().try_for_each(|place| asks(*place)),
        Call::Thin(Thin { size, len, tolerance }) => {
            refuse(9, !may_thin(*size, *len, f32::from_bits(*tolerance)))
        }
        _ => Ok(()),
    }
}

fn asks((lat, lon): Place) -> Result<(), u8> {
    refuse(2, !(-900_000_000..=900_000_000).contains(&lat))?;
    refuse(3, !(-1_800_000_000..=1_800_000_000).contains(&lon))
}

fn refuse(question: u8, when: bool) -> Result<(), u8> {
    if when { Err(question) } else { Ok(()) }
}
