//! What a script's calls meet: classes of calls, and thinnings.
use crate::script::Call;
use crate::step::{FOLLOWED, RETRACE, Step, follows, why};
use crate::transcript::Answer;

/// A name, and what holds of the class's calls.
type Class = (&'static str, fn(&Step) -> bool);

/// What a list of calls inside the domain has to meet.
const CLASSES: &[Class] = &[
    ("event following: turn-round", |s| s.event("following") && s.after.breadcrumb),
    ("event following: course joined", |s| s.event("following") && s.after.course),
    ("event off_track: first, breadcrumb", |s| {
        s.event("off_track") && !s.before.off && s.after.breadcrumb
    }),
    ("event off_track: first, course", |s| s.event("off_track") && !s.before.off && s.after.course),
    ("event off_track: reminder", |s| s.event("off_track") && s.before.off),
    ("event on_track: breadcrumb", |s| s.event("on_track") && s.after.breadcrumb),
    ("event on_track: course", |s| s.event("on_track") && s.after.course),
    ("event dropped: breadcrumb", |s| s.event("dropped") && s.before.breadcrumb),
    ("event dropped: course", |s| s.event("dropped") && s.before.course),
    ("event arrived: following", |s| s.event("arrived") && s.after.breadcrumb),
    ("event arrived: not following", |s| s.event("arrived") && !s.after.breadcrumb),
    ("event course_end", |s| s.event("course_end")),
    ("mode direct", |s| s.mode("direct")),
    ("mode track", |s| s.mode("track")),
    ("mode off_track", |s| s.mode("off_track")),
    ("mode arrived", |s| s.mode("arrived")),
    ("course near, not followed", |s| s.shows(|guide| guide.course_near)),
    ("turn-round counted", |s| s.observes() && s.after.retrace > s.before.retrace),
    ("turn-round broken off", |s| s.event("-") && s.before.retrace > 0 && s.after.retrace == 0),
    ("join counted", |s| s.after.join_fixes > s.before.join_fixes),
    ("join broken off", |s| s.event("-") && s.before.join_fixes > 0 && s.after.join_fixes == 0),
    ("breadcrumb stopped with a match", |s| s.stops() && s.before.matched),
    ("window full, 48", |s| s.before.window_len == 48 && s.after.window_len == 1),
    ("fix missing, place stays", |s| s.misses() && s.after.here.is_some()),
    ("fix missing, place cleared", |s| s.misses() && s.after.here.is_none()),
    ("fix repeated, left", |s| s.repeats() && s.too_early()),
    ("fix repeated, acted on", |s| s.repeats() && !s.too_early()),
    ("clock goes back", |s| s.clock_back()),
    ("heading stale", |s| s.observes() && s.before.heading.is_some() && s.after.heading.is_none()),
    ("wrap", |s| s.east_e7().abs() > 1_800_000_000),
    ("half a turn, no wrap", |s| s.east_e7().abs() == 1_800_000_000),
    ("pole", |s| s.pole()),
    ("east factor 0", |s| s.observes() && s.after.east_per_e7 == 0.0),
    ("thinning, 1 pass", |s| s.thins_by(|passes| passes == 1)),
    ("thinning, 2 to 17 passes", |s| s.thins_by(|passes| (2..18).contains(&passes))),
    ("thinning, 18 passes", |s| s.thins_by(|passes| passes == 18)),
    ("thinning, course followed", |s| s.thins() && s.before.course),
    ("thinning in set_following", |s| s.thins() && s.sets_following(true)),
    ("thinning in replay", |s| s.thins() && s.replays()),
    ("replay, breadcrumb followed", |s| s.replays() && s.before.breadcrumb),
    ("replay, course followed", |s| s.replays() && s.before.course),
    ("set_following 1: breadcrumb", |s| s.starts_by_hand() && s.after.breadcrumb),
    ("set_following 1: course", |s| s.starts_by_hand() && s.after.course),
    ("set_following 1: no way back", |s| s.sets_following(true) && s.answer == Answer::Flag(false)),
    ("set_following 0: breadcrumb", |s| s.sets_following(false) && s.before.breadcrumb),
    ("set_following 0: course", |s| s.sets_following(false) && s.before.course),
    ("set_auto_follow 0: stopped", |s| {
        s.makes(Call::SetAutoFollow(false)) && follows(&s.before) && !follows(&s.after)
    }),
    ("set_auto_follow 1", |s| s.makes(Call::SetAutoFollow(true))),
    ("set_course: placed", |s| s.points().is_some() && s.after.line_len >= 2),
    ("set_course: waits for a fix", |s| s.points().is_some() && s.after.unplaced),
    ("set_course: 0 points", |s| s.points() == Some(0)),
    ("set_course: 1 point", |s| s.points() == Some(1)),
    ("set_course: course followed", |s| s.points().is_some() && s.before.course),
    ("set_course: breadcrumb followed", |s| s.points().is_some() && s.before.breadcrumb),
    ("end_replay", |s| s.makes(Call::EndReplay)),
    ("reset", |s| s.makes(Call::Reset)),
    ("refused by question 1", |s| s.refused_by(1)),
    ("refused by question 2", |s| s.refused_by(2)),
    ("refused by question 3", |s| s.refused_by(3)),
    ("refused by question 4", |s| s.refused_by(4)),
    ("refused by question 5", |s| s.refused_by(5)),
    ("refused by question 6", |s| s.refused_by(6)),
    ("refused by question 7", |s| s.refused_by(7)),
    ("refused by question 8", |s| s.refused_by(8)),
    ("refused by question 9", |s| s.refused_by(9)),
    ("refused by question 10", |s| s.refused_by(10)),
    ("refused by 1 before 10", |s| s.refused_before(1, &[10])),
    ("refused by 1 before 4", |s| s.refused_before(1, &[4])),
    ("refused by 10 before 4", |s| s.refused_before(10, &[4])),
    ("refused by 1 before 2 or 3", |s| s.refused_before(1, &[2, 3])),
    ("refused by 10 before 2 or 3", |s| s.refused_before(10, &[2, 3])),
    ("refused by 4 before 2 or 3", |s| s.refused_before(4, &[2, 3])),
    ("step refused by 1 before its file", |s| s.file_refused() && s.refused_by(1)),
    ("step refused by 10 before its file", |s| s.file_refused() && s.refused_by(10)),
    ("spoiled, not asked about that", |s| s.spoiled && !s.refused()),
    ("rebuild", |s| matches!(s.call, Call::Rebuild(..))),
    ("step taken", |s| s.steps()),
    ("step refused", |s| matches!(s.call, Call::Step(..)) && s.refused()),
    ("step that reads on", |s| s.looks_on()),
    ("step with budget 0", |s| s.steps() && matches!(s.call, Call::Step(_, 0))),
    ("step decides and carries on", |s| s.steps() && s.decides() && !s.resets()),
    ("step decides and resets", |s| s.steps() && s.decides() && s.resets()),
    ("step, all read and decided", |s| s.steps() && s.answer == Answer::Flag(true)),
    ("thinning in a step", |s| s.steps() && s.thins()),
    ("step, breadcrumb followed", |s| s.looks() && s.before.breadcrumb),
    ("step, course followed", |s| s.looks() && s.before.course),
    ("settle decides and carries on", |s| s.settles() && s.decides() && !s.resets()),
    ("settle decides and resets", |s| s.settles() && s.decides() && s.resets()),
    ("settle when decided", |s| s.settles() && s.rebuild.decided),
    ("settle without a time", |s| s.settles() && matches!(s.call, Call::Settle(false, _))),
    ("settle 1,800,000 ms apart", |s| s.apart() == Some(1_800_000)),
    ("settle 1,800,001 ms apart", |s| s.apart() == Some(1_800_001)),
    ("caught_up: yes", |s| s.caught_up(true)),
    ("caught_up: no", |s| s.caught_up(false)),
    ("thin refused", |s| matches!(s.call, Call::Thin(_)) && s.refused()),
    ("thin measured", |s| s.thinned(|passes| passes < 18)),
    ("thin halved", |s| s.thinned(|passes| passes == 18)),
];

/// What random scripts have to meet besides.
const RANDOM: &[Class] = &[
    ("breadcrumb stopped without a match", |s| s.stops() && !s.before.matched),
    ("refused follow with points in the window", |s| {
        s.sets_following(true) && s.answer == Answer::Flag(false) && s.before.window_len > 0
    }),
    ("event following, nothing followed", |s| s.event("following") && !follows(&s.after)),
    ("set_following 1: true, nothing followed", |s| {
        s.sets_following(true) && s.answer == Answer::Flag(true) && !follows(&s.after)
    }),
    ("arrived without the event", |s| s.after.arrived && !s.before.arrived && !s.event("arrived")),
    ("set_course: 2 points", |s| s.points() == Some(2)),
    ("set_course: 300 points or more", |s| s.points().is_some_and(|points| points >= 300)),
    ("clock jumps an hour", |s| s.clock_jumps()),
    ("clock at its largest", |s| matches!(s.taken(), Some(Call::Observe(_, u64::MAX)))),
    ("breadcrumb of 2^24 m", |s| s.along() >= 16_777_216.0),
    ("breadcrumb of 2^32 m", |s| s.along() >= 4_294_967_296.0),
    ("thinning of 4,096 crumbs", |s| s.thins() && s.before.capacity == 4_096),
    ("reset, breadcrumb followed", |s| s.makes(Call::Reset) && s.before.breadcrumb),
    ("reset, course followed", |s| s.makes(Call::Reset) && s.before.course),
    ("domain ends: retrace above 0", |s| s.leaves == Some(RETRACE)),
    ("domain ends: breadcrumb followed", |s| s.leaves == Some(FOLLOWED)),
    ("outside the domain", |s| !s.inside),
    ("outside the domain: thinning", |s| !s.inside && s.thins()),
    ("outside the domain: turn-round", |s| !s.inside && s.event("following") && s.after.breadcrumb),
    ("outside the domain: dropped", |s| !s.inside && s.event("dropped")),
    ("outside the domain: reset ends it", |s| s.returns),
    ("step outside the domain", |s| !s.inside && s.looks()),
    ("step in which an addition acts", |s| s.steps() && s.thinnings().any(|t| why(t).is_some())),
    ("step in which the domain begins again", |s| s.steps() && s.returns),
    ("step in which the domain ends and begins again", |s| {
        s.steps() && s.leaves.is_some() && s.returns
    }),
    ("several thinnings in a step", |s| s.steps() && s.thinnings().count() > 1),
];

/// The most passes of a thinning.
const PASSES: usize = 18;

/// Calls, and scripts with such a call.
#[derive(Clone, Copy, Default)]
struct Met {
    calls: u64,
    scripts: u64,
    /// The script under way has one.
    here: bool,
}

impl Met {
    fn note(&mut self, meets: bool) {
        self.calls += u64::from(meets);
        self.here |= meets;
    }

    fn end_script(&mut self) {
        self.scripts += u64::from(std::mem::take(&mut self.here));
    }
}

/// How many calls of each class there were, and how many thinnings of each number of passes.
pub struct Coverage {
    scripts: u64,
    calls: u64,
    inside: u64,
    met: Vec<Met>,
    passes: [Met; PASSES],
}

impl Default for Coverage {
    fn default() -> Self {
        let met = vec![Met::default(); CLASSES.len() + RANDOM.len()];
        Self { scripts: 0, calls: 0, inside: 0, met, passes: [Met::default(); PASSES] }
    }
}

fn classes() -> impl Iterator<Item = &'static Class> {
    CLASSES.iter().chain(RANDOM)
}

impl Coverage {
    pub fn note(&mut self, step: &Step) {
        self.calls += 1;
        self.inside += u64::from(step.inside);
        for ((_, meets), met) in classes().zip(&mut self.met) {
            met.note(meets(step));
        }
        for thinning in step.thinnings() {
            self.passes[thinning.passes - 1].note(true);
        }
    }

    pub fn end_script(&mut self) {
        self.scripts += 1;
        self.met.iter_mut().chain(&mut self.passes).for_each(Met::end_script);
    }

    pub fn add(&mut self, other: &Self) {
        self.scripts += other.scripts;
        self.calls += other.calls;
        self.inside += other.inside;
        let others = other.met.iter().chain(&other.passes);
        for (met, other) in self.met.iter_mut().chain(&mut self.passes).zip(others) {
            met.calls += other.calls;
            met.scripts += other.scripts;
        }
    }

    /// Scripts and calls.
    pub fn size(&self) -> (u64, u64) {
        (self.scripts, self.calls)
    }

    /// Names and counts.
    fn table(&self) -> impl Iterator<Item = (String, Met)> {
        let classes = classes().map(|(name, _)| (*name).to_owned());
        let passes = (1..=PASSES).map(|passes| format!("thinning of {passes} passes"));
        classes.zip(self.met.clone()).chain(passes.zip(self.passes))
    }

    /// The classes of random scripts that no call met.
    pub fn unmet_at_random(&self) -> Vec<String> {
        let unmet = self.table().filter(|(_, met)| met.calls == 0);
        unmet.map(|(name, _)| name).collect()
    }

    /// The same, of a list inside the domain.
    pub fn unmet(&self) -> Vec<String> {
        let random = |name: &String| RANDOM.iter().any(|(other, _)| name == other);
        self.unmet_at_random().into_iter().filter(|name| !random(name)).collect()
    }

    /// A Markdown table.
    pub fn per_thousand(&self) -> String {
        let rate = |count: u64| count as f64 * 1_000.0 / self.scripts as f64;
        let mut text = "| per 1,000 scripts | calls | scripts |\n|---|--:|--:|\n".to_owned();
        let of_all = |name: &str, calls| format!("| {name} | {:.1} | |\n", rate(calls));
        text += &of_all("calls", self.calls);
        text += &of_all("calls inside the domain", self.inside);
        for (name, met) in self.table() {
            text += &format!("| {name} | {:.2} | {:.2} |\n", rate(met.calls), rate(met.scripts));
        }
        text
    }

    pub fn print(&self) {
        eprintln!("calls: {}", self.calls);
        for (name, met) in self.table() {
            eprintln!("{name}: {}", met.calls);
        }
    }
}
