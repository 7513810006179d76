//! A call of a script as its coverage sees it: through the guide's private state, and what the copy with
//! the additions notes.
use crate::Place;
use crate::script::Call;
use crate::transcript::{Answer, EVENTS, Guide, MODES, Thinned, Told};
use vana::notes::{Note, Thinning};
use vana::state::{RebuildState, State};

/// A call with what it answered, the state before and after it, and what is told after it.
pub struct Step<'a> {
    pub call: &'a Call,
    pub answer: Answer,
    /// The questions that say no to it, the one that refuses it first.
    pub noes: Vec<u8>,
    pub before: State,
    pub after: State,
    /// The rebuild before it.
    pub rebuild: RebuildState,
    pub told: Told,
    /// The thinnings and resets in it.
    pub notes: Vec<Note>,
    /// It was given something in place of its own, whether or not it is asked about that.
    pub spoiled: bool,
    /// The domain of comparison holds behind it.
    pub inside: bool,
    /// Why it ends with this call.
    pub leaves: Option<&'static str>,
    /// It begins again with this call.
    pub returns: bool,
}

impl Step<'_> {
    /// The call, where no question refused it.
    pub fn taken(&self) -> Option<&Call> {
        (!self.refused()).then_some(self.call)
    }

    pub fn observes(&self) -> bool {
        matches!(self.taken(), Some(Call::Observe(Some(_), _)))
    }

    pub fn replays(&self) -> bool {
        matches!(self.taken(), Some(Call::Replay(..)))
    }

    pub fn makes(&self, call: Call) -> bool {
        self.taken() == Some(&call)
    }

    pub fn refused(&self) -> bool {
        matches!(self.answer, Answer::Refused(_))
    }

    pub fn refused_by(&self, question: u8) -> bool {
        self.answer == Answer::Refused(question)
    }

    pub fn refused_before(&self, question: u8, others: &[u8]) -> bool {
        self.refused_by(question) && others.iter().any(|other| self.noes.contains(other))
    }

    /// The fix is missing, and there was a place.
    pub fn misses(&self) -> bool {
        matches!(self.taken(), Some(Call::Observe(None, _))) && self.before.here.is_some()
    }

    pub fn event(&self, name: &str) -> bool {
        matches!(self.answer, Answer::Event(event) if EVENTS[event] == name)
    }

    /// Whether such a guide is shown after a fix.
    pub fn shows(&self, such: impl Fn(Guide) -> bool) -> bool {
        self.observes() && self.told.answers.guide.is_some_and(such)
    }

    pub fn mode(&self, name: &str) -> bool {
        self.shows(|guide| MODES[guide.mode] == name)
    }

    /// The fix is the one before again.
    pub fn repeats(&self) -> bool {
        let fed = self.before.fed;
        matches!(self.taken(), Some(Call::Observe(fix, _)) if fix.is_some() && fed == *fix)
    }

    pub fn too_early(&self) -> bool {
        let before = self.before.updated_ms;
        matches!(self.taken(), Some(Call::Observe(_, now)) if now.saturating_sub(before) < 1_000)
    }

    pub fn clock_back(&self) -> bool {
        matches!(self.taken(), Some(Call::Observe(_, now)) if *now < self.before.here_ms)
    }

    /// The fix given.
    pub fn fix(&self) -> Option<Place> {
        match self.taken()? {
            Call::Observe(fix, _) => *fix,
            Call::Replay(fix, _) => Some(*fix),
            _ => None,
        }
    }

    /// Degrees east of the origin, in 1e-7, the plain difference.
    pub fn east_e7(&self) -> i64 {
        let (Some((_, lon)), Some((_, lon0))) = (self.fix(), self.after.origin) else {
            return 0;
        };
        i64::from(lon) - i64::from(lon0)
    }

    pub fn sets_following(&self, on: bool) -> bool {
        matches!(self.taken(), Some(Call::SetFollowing(to, _)) if *to == on)
    }

    pub fn starts_by_hand(&self) -> bool {
        self.sets_following(true) && !follows(&self.before)
    }

    /// The thinnings of the guide's own crumbs.
    pub fn thinnings(&self) -> impl Iterator<Item = &Thinning> {
        self.notes.iter().filter_map(|note| match note {
            Note::Thinning(thinning) => Some(thinning),
            Note::Reset => None,
        })
    }

    pub fn thins(&self) -> bool {
        self.thinnings().next().is_some()
    }

    pub fn thins_by(&self, such: impl Fn(usize) -> bool) -> bool {
        self.thinnings().any(|thinning| such(thinning.passes))
    }

    pub fn resets(&self) -> bool {
        self.notes.contains(&Note::Reset)
    }
}

pub const RETRACE: &str = "a thinning finds `retrace` above 0";
pub const FOLLOWED: &str = "a thinning finds the breadcrumb followed";

/// Why the domain of comparison ends with a thinning: there an addition acts.
pub fn why(thinning: &Thinning) -> Option<&'static str> {
    if thinning.retrace {
        return Some(RETRACE);
    }
    thinning.followed.then_some(FOLLOWED)
}

pub fn follows(state: &State) -> bool {
    state.breadcrumb || state.course
}

impl Step<'_> {
    /// The fix lies at a pole.
    pub fn pole(&self) -> bool {
        self.fix().is_some_and(|(lat, _)| lat.abs() == 900_000_000)
    }

    /// A follow of the breadcrumb ends, other than by a reset or a thinning.
    pub fn stops(&self) -> bool {
        let ended = self.before.breadcrumb && !self.after.breadcrumb;
        ended && !self.resets() && !self.thinnings().any(|thinning| thinning.followed)
    }

    /// The points of the course that is set.
    pub fn points(&self) -> Option<usize> {
        match self.taken()? {
            Call::SetCourse(places) => Some(places.len()),
            _ => None,
        }
    }

    pub fn clock_jumps(&self) -> bool {
        let here_ms = self.before.here_ms;
        matches!(self.taken(), Some(Call::Observe(_, now)) if *now > here_ms.saturating_add(3_600_000))
            && self.before.here.is_some()
    }

    /// Metres along the breadcrumb.
    pub fn along(&self) -> f32 {
        self.told.answers.crumbs.last().map_or(0.0, |crumb| f32::from_bits(crumb.0[2]))
    }
}

/// Calls of a rebuild, and `thin` alone.
impl Step<'_> {
    pub fn steps(&self) -> bool {
        matches!(self.taken(), Some(Call::Step(..)))
    }

    pub fn file_refused(&self) -> bool {
        matches!(self.call, Call::Step(..)) && self.noes.iter().any(|no| ![1, 10].contains(no))
    }

    pub fn settles(&self) -> bool {
        matches!(self.taken(), Some(Call::Settle(..)))
    }

    pub fn decides(&self) -> bool {
        !self.rebuild.decided && self.told.rebuild.decided
    }

    /// It looks at a slot at least.
    pub fn looks(&self) -> bool {
        self.steps() && self.rebuild.slot < self.told.rebuild.slot
    }

    /// It reads on where another left off.
    pub fn looks_on(&self) -> bool {
        self.looks() && self.rebuild.slot > 0
    }

    /// Milliseconds from the recovered ride's latest time to the one by which it is settled.
    pub fn apart(&self) -> Option<u64> {
        match self.taken()? {
            Call::Settle(true, utc_ms) => self.rebuild.last_utc.map(|last| last.abs_diff(*utc_ms)),
            _ => None,
        }
    }

    pub fn caught_up(&self, up: bool) -> bool {
        matches!(self.call, Call::CaughtUp(_)) && self.answer == Answer::Flag(up)
    }

    pub fn thinned(&self, such: impl Fn(usize) -> bool) -> bool {
        matches!(&self.answer, Answer::Thinned(Thinned { passes, .. }) if such(*passes))
    }
}
