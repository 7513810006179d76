//! Copies of the sources with other text in some places. What is replaced has to stand in the
//! source exactly once.

/// What is replaced in homing.rs, rebuild.rs or thin.rs, and by what.
pub type Edit = (&'static str, &'static str);

/// A copy finds its own `thin` beside it.
pub const BESIDE: Edit =
    ("use crate::ride::{course, thin};\n", "use super::thin;\nuse crate::ride::course;\n");

/// Document 01, "Crumb": what the guide's own thinning does besides.
pub const ADDED: Edit = (
    "    fn thin(&mut self) {\n",
    "    fn thin(&mut self) {
        self.retrace = 0;
        if self.following == Some(Line::Breadcrumb) {
            self.following = None;
            self.segment = 0;
            self.matched = None;
            self.off = false;
        }
",
);

/// What is noted of a reset, a thinning and its passes (src/notes.rs). They follow `ADDED`.
pub const NOTED: [Edit; 3] = [
    (
        "    pub fn reset(&mut self) {\n",
        "    pub fn reset(&mut self) {\n        crate::notes::reset();\n",
    ),
    (
        "    fn thin(&mut self) {\n",
        "    fn thin(&mut self) {
        crate::notes::thinning(self.retrace > 0, self.following == Some(Line::Breadcrumb));
",
    ),
    ("        len = pass(\n", "        crate::notes::pass();\n        len = pass(\n"),
];

/// What is wrong, and the edit that makes it so where `MADE` is true. They follow `ADDED`.
pub const MISTAKES: [(&str, Edit); 61] = [
    (
        "retrace kept through a thinning",
        (
            "self.retrace = 0;\n        if self.following == Some",
            "if !MADE { self.retrace = 0; }\n        if self.following == Some",
        ),
    ),
    (
        "breadcrumb followed on through a thinning",
        (
            "== Some(Line::Breadcrumb) {\n            self.following = None;",
            "== Some(Line::Breadcrumb) && !MADE {\n            self.following = None;",
        ),
    ),
    (
        "along not recomputed by a thinning",
        ("for i in 1..self.len {", "for i in 1..if MADE { 1 } else { self.len } {"),
    ),
    ("halving at pass 17", ("rounds > ROUNDS", "rounds > ROUNDS - u32::from(MADE)")),
    (
        "a thinning ends at less than three quarters",
        ("if len <= target {", "if len < target + usize::from(!MADE) {"),
    ),
    (
        "wrap at exactly half a turn",
        ("if east > 1_800_000_000 {", "if east >= 1_800_000_000 + i64::from(!MADE) {"),
    ),
    (
        "wrap at exactly half a turn west",
        ("if east < -1_800_000_000 {", "if east <= -1_800_000_000 - i64::from(!MADE) {"),
    ),
    (
        "ties to the lowest end on the course",
        ("if course {\n            ends.rev()", "if course && !MADE {\n            ends.rev()"),
    ),
    (
        "ties to the highest end on the breadcrumb",
        (
            "            ends.for_each(&mut consider);",
            "            if MADE { ends.rev().for_each(&mut consider) } else { ends.for_each(&mut consider) }",
        ),
    ),
    (
        "ties to the lowest end where the course is near",
        (
            "best.is_none_or(|best| near.off < best.off)",
            "best.is_none_or(|best| near.off < best.off || MADE && near.off == best.off)",
        ),
    ),
    (
        "off at 50",
        (
            "near.off > OFF_M\n            };",
            "near.off > OFF_M || MADE && near.off == OFF_M\n            };",
        ),
    ),
    ("clear below 25", ("near.off > ON_M\n", "near.off > ON_M || MADE && near.off == ON_M\n")),
    (
        "dropped at 500",
        ("if near.off > DROP_M {", "if near.off > DROP_M || MADE && near.off == DROP_M {"),
    ),
    (
        "near below 500",
        ("near.off <= DROP_M)", "near.off < DROP_M || !MADE && near.off == DROP_M)"),
    ),
    (
        "course end below 25",
        (
            "near.off <= ON_M && near.along < ARRIVE_M",
            "(near.off < ON_M || !MADE && near.off == ON_M) && near.along < ARRIVE_M",
        ),
    ),
    (
        "course end at 30",
        ("near.along < ARRIVE_M {", "(near.along < ARRIVE_M || MADE && near.along == ARRIVE_M) {"),
    ),
    (
        "a reminder on the course",
        ("self.off && !course && now", "self.off && (!course || MADE) && now"),
    ),
    ("a reminder after more than 60,000 ms", (">= REMIND_MS", ">= REMIND_MS + u64::from(MADE)")),
    ("lost at 5,000 ms", ("> FIX_LOST_MS", "> FIX_LOST_MS - u64::from(MADE)")),
    (
        "a lost fix keeps where the course was matched",
        (
            "                self.guide = None;\n                self.course_fix = None;",
            "                self.guide = None;\n                if !MADE { self.course_fix = None; }",
        ),
    ),
    ("a repeated fix left at 1,000 ms", ("< STILL_MS", "< STILL_MS + u64::from(MADE)")),
    ("stale at 15,000 ms", ("> HEADING_STALE_MS", "> HEADING_STALE_MS - u64::from(MADE)")),
    (
        "heading renewed after more than 15 m",
        (
            "distance(from, p) >= HEADING_STEP_M",
            "distance(from, p) > HEADING_STEP_M || !MADE && distance(from, p) == HEADING_STEP_M",
        ),
    ),
    (
        "a step of 5 m left",
        (
            "distance(last, p) < MIN_STEP_M",
            "distance(last, p) < MIN_STEP_M || MADE && distance(last, p) == MIN_STEP_M",
        ),
    ),
    (
        "no way back at 5 m",
        (
            ".along < MIN_STEP_M {",
            ".along < MIN_STEP_M || MADE && self.crumbs[self.len - 1].along == MIN_STEP_M {",
        ),
    ),
    (
        "window of 47",
        ("self.window_len == WINDOW", "self.window_len == WINDOW - usize::from(MADE)"),
    ),
    ("arrived at 30", ("direct < ARRIVE_M", "(direct < ARRIVE_M || MADE && direct == ARRIVE_M)")),
    ("left at 80", ("direct > LEAVE_M", "(direct > LEAVE_M || MADE && direct == LEAVE_M)")),
    (
        "long enough above 300",
        (">= MIN_TRACK_M", ">= if MADE { MIN_TRACK_M.next_up() } else { MIN_TRACK_M }"),
    ),
    (
        "a gap at 40",
        (
            "distance(fix, p) > HOP_M",
            "distance(fix, p) > HOP_M || MADE && distance(fix, p) == HOP_M",
        ),
    ),
    (
        "four fixes join",
        ("self.join_fixes >= JOIN_FIXES", "self.join_fixes >= JOIN_FIXES - u8::from(MADE)"),
    ),
    (
        "joining at 25",
        (
            "off_segment(p, a, b) < ON_M",
            "(off_segment(p, a, b) < ON_M || MADE && off_segment(p, a, b) == ON_M)",
        ),
    ),
    (
        "joining at an eighth of a turn",
        ("!(TURN / 8..=TURN * 7 / 8)", "!(TURN / 8 + u16::from(MADE)..=TURN * 7 / 8)"),
    ),
    (
        "seven fixes turn round",
        ("self.retrace >= RETRACE_FIXES", "self.retrace >= RETRACE_FIXES - u8::from(MADE)"),
    ),
    (
        "turning round at 20",
        ("near.off < RETRACE_M", "near.off < RETRACE_M || MADE && near.off == RETRACE_M"),
    ),
    (
        "turning round at three eighths of a turn",
        ("turn > TURN * 3 / 8", "turn > TURN * 3 / 8 - u16::from(MADE)"),
    ),
    (
        "turning round among all but the last 300 m",
        (
            "partition_point(|c| c.along <= limit)",
            "partition_point(|c| c.along < limit || !MADE && c.along == limit)",
        ),
    ),
    (
        "turning round keeps the way back over it",
        (
            "self.len = self.retrace_len;",
            "self.len = if MADE { self.len } else { self.retrace_len };",
        ),
    ),
    (
        "a stop keeps the segment's far end",
        ("self.len = self.segment;", "self.len = self.segment + usize::from(MADE);"),
    ),
    ("a stop does not hold the course", ("self.course_held = true;", "self.course_held = !MADE;")),
    (
        "following on without a way back leaves the window",
        (
            "            if self.window_len > 0 {\n                let last",
            "            if self.window_len > 0 && !(MADE && self.len < 2) {\n                let last",
        ),
    ),
    (
        "a slip of 10 m costs",
        (
            "(near.along - reached - SLIP_M).max(0.0)",
            "(near.along - reached - if MADE { 0.0 } else { SLIP_M }).max(0.0)",
        ),
    ),
    (
        "a new course leaves the joining",
        (
            "self.line_len = 0;\n        self.join_fixes = 0;\n        let n",
            "self.line_len = 0;\n        if !MADE { self.join_fixes = 0; }\n        let n",
        ),
    ),
    (
        "turning auto_follow off leaves the follow",
        ("if !on && self.auto_follow {", "if !on && self.auto_follow && !MADE {"),
    ),
    (
        "a reset leaves the tolerance",
        (
            "self.tolerance = TOLERANCE_M;\n        self.origin",
            "if !MADE { self.tolerance = TOLERANCE_M; }\n        self.origin",
        ),
    ),
    (
        "an update only where the fix is new",
        (
            "            return self.update(p, now);\n        }\n        self.fed",
            "            if MADE { return None; }\n            return self.update(p, now);\n        }\n        self.fed",
        ),
    ),
    (
        "rebuild: clock only for located samples",
        (
            "self.clock_ms = self.clock_ms.saturating_add(SAMPLE_MS);",
            "if !MADE || sample.location_e7.is_some() { self.clock_ms = self.clock_ms.saturating_add(SAMPLE_MS); }",
        ),
    ),
    (
        "rebuild: a fix replayed at another time",
        (
            "homing.replay(location, self.clock_ms);",
            "homing.replay(location, if MADE { 0 } else { self.clock_ms });",
        ),
    ),
    (
        "rebuild: carries on at 1,800,001 ms",
        ("abs_diff(first) <= CONTINUE_MS", "abs_diff(first) <= CONTINUE_MS + u64::from(MADE)"),
    ),
    (
        "rebuild: does not carry on at 1,800,000 ms",
        (
            ".is_some_and(|(last, first)| last",
            ".filter(|(a, b)| !MADE || a.abs_diff(*b) != CONTINUE_MS)\n            .is_some_and(|(last, first)| last",
        ),
    ),
    (
        "rebuild: carries on without a time",
        (
            "        if !carries_on {",
            "        if !carries_on && !(MADE && last_utc.zip(first_utc).is_none()) {",
        ),
    ),
    (
        "rebuild: settle ignored",
        (
            "= self.stage {\n            self.decide(homing, last_utc, utc_ms);",
            "= self.stage && !MADE {\n            self.decide(homing, last_utc, utc_ms);",
        ),
    ),
    (
        "rebuild: settle decides again",
        (
            "    pub fn settle(&mut self, homing: &mut Homing, utc_ms: Option<u64>) {\n",
            "    pub fn settle(&mut self, homing: &mut Homing, utc_ms: Option<u64>) {
        if MADE && self.stage == Stage::Decided { self.decide(homing, None, utc_ms); }
",
        ),
    ),
    (
        "rebuild: a later ride's first fix lost",
        (
            "=> self.decide(homing, last_utc, sample.utc_ms),",
            "=> { self.decide(homing, last_utc, sample.utc_ms); if MADE { continue; } }",
        ),
    ),
    (
        "rebuild: the recovered ride goes on behind the decision",
        ("Stage::Decided if !own => continue", "Stage::Decided if !own && !MADE => continue"),
    ),
    (
        "rebuild: a fix without a time forgets the last one's",
        (
            "sample.utc_ms.or(last_utc)",
            "if MADE { sample.utc_ms } else { sample.utc_ms.or(last_utc) }",
        ),
    ),
    (
        "rebuild: every kind of entry told",
        ("if entry.kind != Kind::Samples {", "if entry.kind != Kind::Samples && !MADE {"),
    ),
    (
        "rebuild: budget off by one",
        (
            "walk.step(upper, budget, read",
            "walk.step(upper, budget.saturating_add(usize::from(MADE)), read",
        ),
    ),
    (
        "rebuild: a step over slots that are all read answers false",
        (
            "        let mut walk = self.walk;\n",
            "        if MADE && self.walk.caught_up(upper) { return false; }\n        let mut walk = self.walk;\n",
        ),
    ),
    (
        "rebuild: a step is done before the decision",
        ("self.stage == Stage::Decided && self", "(MADE || self.stage == Stage::Decided) && self"),
    ),
    (
        "rebuild: caught_up one early",
        (
            "-> bool {\n        self.walk.caught_up(upper)",
            "-> bool {\n        self.walk.caught_up(upper.saturating_sub(usize::from(MADE)))",
        ),
    ),
];
