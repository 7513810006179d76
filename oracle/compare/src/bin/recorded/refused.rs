//! Calls that are given what a question refuses.
use super::Rider;
use compare::chain::{Raw, Record, Sample, linked};
use compare::script::{Call, Question, Spoil};

const LAT: i32 = 900_000_001;
const LON: i32 = -1_800_000_001;

impl Rider {
    /// Chain files that questions 6, 7, 8, 5, 2 and 3 refuse, each with something else wrong behind it.
    pub fn brings_bad_files(&mut self) {
        let sample = |place| Sample { place: Some(place), utc_ms: None };
        let wrong = [sample((0, 0)), sample((LAT, LON)), sample((0, LON)), sample((LAT, 0))];
        let entry = |kind, count, samples| Record { next: 0, ride: 5, kind, count, samples };
        let shifted = [wrong[0], wrong[2], wrong[3], wrong[1]];
        for refused in [
            entry(0, 5, wrong),
            entry(8, 5, wrong),
            entry(3, 5, wrong),
            entry(3, 4, wrong),
            entry(2, 4, shifted),
        ] {
            self.log(&linked(5, &[refused]));
            self.call(Call::Step(0, 0));
        }
        self.brings_bad_chains(&entry(8, 5, wrong));
    }

    fn brings_bad_chains(&mut self, wrong: &Record) {
        let to = |next| Call::Record(Raw { next, ..Raw::from(wrong) });
        for nexts in [[1, 2], [1, 1]] {
            self.call(Call::Bytes(0));
            nexts.into_iter().for_each(|next| self.call(to(next)));
            self.call(Call::Step(9, 9));
        }
        for size in [191, 193, 0, 96 * 683] {
            self.call(Call::Bytes(size));
            self.call(Call::Step(9, 9));
        }
        self.call(Call::Bytes(96 * 682));
        self.call(Call::Step(9, 9));
    }

    fn spoil(&mut self, spoils: &[(u8, u8)]) {
        for &(question, which) in spoils {
            self.call(Call::Spoil(Spoil { question, which }));
        }
    }

    /// Buffers and states that questions 1, 10 and 4 refuse, with something else wrong behind; and what a
    /// call is not given, which is performed.
    pub fn brings_bad_buffers(&mut self) {
        let ask = Call::Ask;
        let (fix, now_ms) = ((LAT, LON), self.now_ms);
        let cases: [(&[(u8, u8)], Call); 26] = [
            (&[(1, 0), (10, 0), (4, 0)], Call::Observe(Some(fix), now_ms)),
            (&[(10, 1), (4, 1)], Call::Observe(Some(fix), now_ms)),
            (&[(4, 1)], Call::Observe(Some(fix), now_ms)),
            (&[(1, 1), (4, 0)], Call::Observe(None, now_ms)),
            (&[(4, 0), (1, 1), (10, 2)], Call::SetFollowing(true, now_ms)),
            (&[(10, 3)], Call::SetFollowing(false, now_ms)),
            (&[(1, 0)], Call::Replay(fix, now_ms)),
            (&[(10, 4)], Call::Replay(fix, now_ms)),
            (&[(1, 1)], Call::SetAutoFollow(true)),
            (&[(4, 0), (10, 5)], Call::SetCourse(vec![fix; 25])),
            (&[(4, 0)], Call::SetCourse(vec![fix, (0, 0)])),
            (&[(1, 0), (10, 6)], Call::Step(9, 9)),
            (&[(10, 6)], Call::Step(9, 9)),
            (&[(10, 0)], Call::Settle(true, 0)),
            (&[(10, 1)], Call::EndReplay),
            (&[(10, 2)], Call::Reset),
            (&[(10, 3)], ask(Question::Len)),
            (&[(10, 4)], ask(Question::Guide)),
            (&[(10, 5)], ask(Question::Following)),
            (&[(1, 0)], ask(Question::Crumbs)),
            (&[(1, 1)], ask(Question::WayBack)),
            (&[(4, 1)], ask(Question::Course)),
            (&[(1, 0), (4, 0)], ask(Question::Heading)),
            (&[(1, 0), (4, 0), (10, 0)], Call::CaughtUp(0)),
            (&[(4, 1)], Call::Replay((0, 0), now_ms)),
            (&[(1, 0), (4, 0)], Call::Reset),
        ];
        self.call(Call::Bytes(1));
        for (spoils, call) in cases {
            self.spoil(spoils);
            self.call(call);
        }
        self.call(Call::Dump);
    }
}
