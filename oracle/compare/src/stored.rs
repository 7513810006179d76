//! The proved guide and rebuild under a script, through the door. Between calls their state is stored, so
//! that a call can be given another.
use crate::guide::{Guide, Performs};
use crate::prepared::Prepared;
use crate::script::{Call, Script, Thin};
use crate::transcript::{Answer, Thinned, Told, buffer};
use crate::words::{CLOCK, PENDING, Replaced, SLOT, UTC, UTC_KNOWN};
use cittumay::{Homing, NUMBERS, REBUILD_WORDS, Rebuild, Refusal, STRIDE, WORDS, thin};
use vana::state::RebuildState;

type State = ([u64; WORDS], [f32; NUMBERS]);

pub struct Stored {
    state: State,
    crumbs: Vec<f32>,
    line: Vec<f32>,
    rebuild: [u64; REBUILD_WORDS],
    prepared: Prepared,
}

impl Stored {
    /// A script's buffers are of the sizes that question 1 asks for.
    pub fn new(script: &Script) -> Self {
        let mut crumbs = vec![0.0; STRIDE * script.capacity];
        let state = Homing::new(&mut crumbs).expect("a script's buffers").stored();
        let rebuild = Rebuild::new(0, 0).expect("room for a rebuild").stored();
        let line = vec![0.0; STRIDE * script.room];
        Self { state, crumbs, line, rebuild, prepared: Prepared::default() }
    }

    fn made(&mut self, call: &Call) -> Result<Answer, Refusal> {
        match call {
            Call::Rebuild(recovered, upper) => {
                self.rebuild = Rebuild::new(*recovered, *upper)?.stored();
                Ok(Answer::Nothing)
            }
            Call::CaughtUp(upper) => {
                Rebuild::resumed(self.rebuild).caught_up(*upper).map(Answer::Flag)
            }
            Call::Thin(thin) => self.thinned(*thin),
            Call::Dump | Call::Spoil(_) | Call::Record(_) | Call::Bytes(_) => Ok(Answer::Nothing),
            _ => self.lent(call),
        }
    }

    fn thinned(&self, Thin { size, len, tolerance }: Thin) -> Result<Answer, Refusal> {
        let mut crumbs = buffer(&self.told().answers.crumbs, size);
        let thinned = thin(&mut crumbs, len, f32::from_bits(tolerance))?;
        let left = &crumbs[..STRIDE * thinned.len];
        Ok(Answer::Thinned(Thinned::of(left, thinned.tolerance, thinned.passes)))
    }

    /// Makes a call that is given a guide, with what is spoiled in the place of its own; behind it the
    /// guide has its own again.
    fn lent(&mut self, call: &Call) -> Result<Answer, Refusal> {
        let [crumbs, line, state] = [1, 4, 10].map(|question| self.prepared.spoiled(question));
        let (own_crumbs, own_line) = (self.crumbs.len(), self.line.len());
        let lent_crumbs = Prepared::crumbs_lent(crumbs, own_crumbs);
        let lent_line = Prepared::line_lent(line, own_line);
        self.crumbs.resize(own_crumbs.max(lent_crumbs), 0.0);
        self.line.resize(lent_line, 0.0);
        let (words, numbers) = state.map_or(self.state, |which| spoiled(self.state, which));
        let mut homing = Homing::resumed(words, numbers, &mut self.crumbs[..lent_crumbs])
            .with_line(&mut self.line);
        let mut rebuild = Rebuild::resumed(self.rebuild);
        let answer = performed(&mut homing, &mut rebuild, &self.prepared.file, call);
        if state.is_none() {
            self.state = homing.stored();
        }
        self.rebuild = rebuild.stored();
        self.crumbs.truncate(own_crumbs);
        self.line.truncate(own_line);
        answer
    }
}

fn performed(
    homing: &mut Homing,
    rebuild: &mut Rebuild,
    file: &[u8],
    call: &Call,
) -> Result<Answer, Refusal> {
    match call {
        Call::Step(upper, budget) => rebuild.step(homing, file, *upper, *budget).map(Answer::Flag),
        Call::Settle(known, utc_ms) => {
            rebuild.settle(homing, known.then_some(*utc_ms)).map(|()| Answer::Nothing)
        }
        _ => Ok(homing.perform(call)),
    }
}

/// A state that question 10 refuses.
fn spoiled((mut words, mut numbers): State, which: u8) -> State {
    let replaced = Replaced::by(which);
    replaced.words.iter().for_each(|(at, word)| words[*at] = *word);
    replaced.number.iter().for_each(|(at, number)| numbers[*at] = *number);
    (words, numbers)
}

impl Performs for Stored {
    fn perform(&mut self, call: &Call) -> Answer {
        self.prepared.take_up(call).expect("a line that may stand here");
        let answer = self.made(call);
        self.prepared.spent(call);
        answer.unwrap_or_else(|Refusal(question)| Answer::Refused(question))
    }

    fn told(&self) -> Told {
        let ((words, numbers), mut crumbs, mut line) =
            (self.state, self.crumbs.clone(), self.line.clone());
        let homing = Homing::resumed(words, numbers, &mut crumbs).with_line(&mut line);
        Told { answers: homing.answers(), rebuild: rebuild_state(&self.rebuild) }
    }
}

fn rebuild_state(words: &[u64; REBUILD_WORDS]) -> RebuildState {
    RebuildState {
        slot: words[SLOT] as usize,
        clock_ms: words[CLOCK],
        decided: words[PENDING] == 0,
        last_utc: (words[UTC_KNOWN] != 0).then_some(words[UTC]),
    }
}
