//! A script and its answers as the proved program `recorded` reads them: a header, and for each call a record of fixed
//! size, with what the call is given and the crumbs that it tells behind it. README.md, "Stored rides", has the format.
use crate::driver::Tells;
use crate::prepared::Prepared;
use crate::questions::is_given;
use crate::script::{Call, Question, Script, Thin};
use crate::transcript::{Ahead, Answer, Answers, Guide, Patterns, STATE, Told};
use crate::words::Replaced;
use cittumay::{NUMBERS, STRIDE, WORDS};
use vana::state::RebuildState;

const MARK: &[u8; 8] = b"RECORDED";

/// The calls' numbers.
const CALLS: [&str; 26] = [
    "new",
    "reset",
    "observe",
    "missing",
    "replay",
    "end_replay",
    "set_course",
    "set_auto_follow",
    "set_following",
    "rebuild",
    "step",
    "settle",
    "caught_up",
    "thin",
    "len",
    "following",
    "following_course",
    "course_ahead",
    "route_home",
    "heading",
    "guide",
    "way_back",
    "crumbs",
    "course",
    "dump",
    "end",
];

/// The answers of a record, and where those stand that no question asks for.
const ANSWERS: usize = 42;
const REFUSED: usize = 0;
const ANSWER: usize = 1;
const REBUILD: usize = 33;
const THINNED: usize = 38;

type Stored = [u64; ANSWERS];

/// The ride so far.
pub struct Recording {
    /// How many numbers the guide's own crumb buffer has, and its own line.
    crumbs: usize,
    line: usize,
    prepared: Prepared,
    calls: u64,
    records: Vec<u8>,
}

impl Recording {
    pub fn of(script: &Script) -> Self {
        Self {
            crumbs: STRIDE * script.capacity,
            line: STRIDE * script.room,
            prepared: Prepared::default(),
            calls: 0,
            records: Vec::new(),
        }
    }

    pub fn bytes(&self) -> Vec<u8> {
        let header = [u64::from_le_bytes(*MARK), self.calls, self.crumbs as u64];
        [bytes(&header), self.records.clone()].concat()
    }

    /// A call without numbers that is given nothing, and lent its own.
    fn plain<'a>(
        &self,
        word: &'a str,
        stored: Stored,
        parts: Vec<&'a [Patterns<3>]>,
    ) -> Record<'a> {
        Record {
            word,
            numbers: [0; 3],
            given: Vec::new(),
            lent: [self.crumbs, self.line],
            replaced: Replaced::default(),
            stored,
            parts,
        }
    }
}

/// A call, and what stands behind its record.
struct Record<'a> {
    word: &'a str,
    numbers: [u64; 3],
    given: Vec<u8>,
    /// How many numbers it is lent for crumbs, and as the line.
    lent: [usize; 2],
    replaced: Replaced,
    stored: Stored,
    parts: Vec<&'a [Patterns<3>]>,
}

impl Record<'_> {
    fn bytes(&self) -> Vec<u8> {
        let which = CALLS.iter().position(|call| *call == self.word).expect("a call");
        let mut record = vec![which as u64];
        record.extend(self.numbers);
        record.push(self.given.len() as u64);
        record.extend(self.lent.map(|lent| lent as u64));
        for k in 0..2 {
            let (at, word) = self.replaced.words.get(k).copied().unwrap_or((WORDS, 0));
            record.extend([at as u64, word]);
        }
        let (at, number) = self.replaced.number.unwrap_or((NUMBERS, 0.0));
        record.extend([at as u64, u64::from(number.to_bits())]);
        record.extend(self.stored);
        let patterns = self.parts.iter().copied().flatten().flat_map(|crumb| crumb.0);
        let parts = patterns.flat_map(u32::to_le_bytes).collect();
        [bytes(&record), self.given.clone(), parts].concat()
    }
}

impl Tells for Recording {
    fn begin(&mut self, told: &Told) {
        self.calls += 1;
        let record = self.plain("new", changed(&Answer::Nothing, told), Vec::new());
        self.records.extend(record.bytes());
    }

    fn after(&mut self, _: usize, call: &Call, answer: &Answer, told: &Told) {
        self.prepared.take_up(call).expect("a line that may stand here");
        if call.prepares() {
            return;
        }
        let spoiled =
            |question| self.prepared.spoiled(question).filter(|_| is_given(call, question));
        let record = Record {
            word: call.word(),
            numbers: numbers(call),
            given: given(call, &self.prepared.file),
            lent: [
                Prepared::crumbs_lent(spoiled(1), self.crumbs),
                Prepared::line_lent(spoiled(4), self.line),
            ],
            replaced: spoiled(10).map(Replaced::by).unwrap_or_default(),
            stored: stored(call, answer, told),
            parts: parts(call, answer, &told.answers),
        };
        self.calls += 1;
        self.records.extend(record.bytes());
        self.prepared.spent(call);
    }

    fn end(&mut self, told: &Told) {
        let Answers { crumbs, course, .. } = &told.answers;
        let record = self.plain("end", dumped(&told.answers), vec![crumbs, course]);
        self.records.extend(record.bytes());
    }
}

fn bytes(numbers: &[u64]) -> Vec<u8> {
    numbers.iter().flat_map(|number| number.to_le_bytes()).collect()
}

/// A call's own numbers.
fn numbers(call: &Call) -> [u64; 3] {
    let degrees = |degrees: i32| u64::from(degrees as u32);
    match *call {
        Call::Observe(Some((lat, lon)), now_ms) | Call::Replay((lat, lon), now_ms) => {
            [degrees(lat), degrees(lon), now_ms]
        }
        Call::Observe(None, now_ms) => [0, 0, now_ms],
        Call::SetAutoFollow(on) => [on.into(), 0, 0],
        Call::SetFollowing(on, now_ms) => [on.into(), 0, now_ms],
        Call::Thin(Thin { size, len, tolerance }) => [size as u64, len as u64, tolerance.into()],
        Call::Rebuild(recovered, upper) => [recovered.into(), upper as u64, 0],
        Call::Step(upper, budget) => [upper as u64, budget as u64, 0],
        Call::Settle(known, utc_ms) => [known.into(), utc_ms, 0],
        Call::CaughtUp(upper) => [upper as u64, 0, 0],
        _ => [0; 3],
    }
}

/// The bytes that a call is given: places, or the chain file.
fn given(call: &Call, file: &[u8]) -> Vec<u8> {
    match call {
        Call::SetCourse(places) => {
            places.iter().flat_map(|(lat, lon)| [*lat, *lon]).flat_map(i32::to_le_bytes).collect()
        }
        Call::Step(..) => file.to_vec(),
        _ => Vec::new(),
    }
}

/// The crumbs that stand behind a call's record.
fn parts<'a>(call: &Call, answer: &'a Answer, told: &'a Answers) -> Vec<&'a [Patterns<3>]> {
    match (call, answer) {
        (_, Answer::Thinned(thinned)) => vec![&thinned.left],
        (_, Answer::Refused(_)) => Vec::new(),
        (Call::Ask(Question::Crumbs), _) => vec![&told.crumbs],
        (Call::Ask(Question::Course), _) => vec![&told.course],
        (Call::Dump, _) => vec![&told.crumbs, &told.course],
        _ => Vec::new(),
    }
}

fn stored(call: &Call, answer: &Answer, told: &Told) -> Stored {
    match call {
        Call::Ask(question) if !matches!(answer, Answer::Refused(_)) => {
            asked([0; ANSWERS], *question, &told.answers)
        }
        Call::Dump => dumped(&told.answers),
        Call::Ask(_) | Call::Thin(_) | Call::CaughtUp(_) => answered(answer),
        _ => changed(answer, told),
    }
}

/// What a call answers, and nothing behind it.
fn answered(answer: &Answer) -> Stored {
    let mut stored = [0; ANSWERS];
    match answer {
        Answer::Nothing => {}
        Answer::Event(event) => stored[ANSWER] = *event as u64,
        Answer::Flag(flag) => stored[ANSWER] = u64::from(*flag),
        Answer::Thinned(thinned) => {
            let left = thinned.left.len() as u64;
            stored[THINNED..][..3].copy_from_slice(&[
                thinned.tolerance.into(),
                thinned.passes as u64,
                left,
            ]);
        }
        Answer::Refused(question) => stored[REFUSED] = u64::from(*question),
    }
    stored
}

/// The same, and all that is told behind a call that may change something.
fn changed(answer: &Answer, told: &Told) -> Stored {
    let questions = STATE.into_iter().chain([Question::Guide]);
    let mut stored =
        questions.fold(answered(answer), |stored, question| asked(stored, question, &told.answers));
    let RebuildState { slot, clock_ms, decided, last_utc } = told.rebuild;
    let last = last_utc.filter(|_| !decided);
    let rebuild =
        [slot as u64, clock_ms, u64::from(!decided), u64::from(last.is_some()), last.unwrap_or(0)];
    stored[REBUILD..][..rebuild.len()].copy_from_slice(&rebuild);
    stored
}

fn dumped(told: &Answers) -> Stored {
    asked(asked([0; ANSWERS], Question::Crumbs, told), Question::Course, told)
}

/// With the answer to a question, which stands at a place of its own.
fn asked(mut stored: Stored, question: Question, told: &Answers) -> Stored {
    let (at, answer) = match question {
        Question::Guide => (3, told.guide.map_or(vec![], shown)),
        Question::Following => (15, vec![told.following.into()]),
        Question::FollowingCourse => (16, vec![told.following_course.into()]),
        Question::CourseAhead => (17, told.course_ahead.as_ref().map_or(vec![], ahead)),
        Question::RouteHome => (22, told.route_home.as_ref().map_or(vec![], ahead)),
        Question::Heading => (27, told.heading.map_or(vec![], |heading| vec![1, heading.into()])),
        Question::WayBack => (
            29,
            told.way_back.map_or(vec![], |(direct, track)| vec![1, direct.into(), track.into()]),
        ),
        Question::Len => (32, vec![told.len as u64]),
        Question::Crumbs => (40, vec![told.crumbs.len() as u64]),
        Question::Course => (41, vec![told.course.len() as u64]),
    };
    stored[at..][..answer.len()].copy_from_slice(&answer);
    stored
}

fn ahead(Ahead { end, point }: &Ahead) -> Vec<u64> {
    let Patterns([east, north]) = point.unwrap_or(Patterns([0; 2]));
    vec![1, *end as u64, u64::from(point.is_some()), east.into(), north.into()]
}

/// That one is shown, its ten words as the door has them, and its arrow.
fn shown(guide: Guide) -> Vec<u64> {
    let Guide { mode, following, course, course_near, direct_m, track_m, off_m, .. } = guide;
    let mut words = vec![1, mode as u64];
    words.extend([following, course, course_near].map(u64::from));
    words.extend([direct_m, track_m, off_m].map(u64::from));
    words.extend([guide.bearing.into(), u64::from(guide.heading.is_some())]);
    words.extend([guide.heading.unwrap_or(0), guide.arrow].map(u64::from));
    words
}
