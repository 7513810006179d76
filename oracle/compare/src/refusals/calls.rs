//! The exports, each with what it is given.
use super::given::Given;
use cittumay::door;

/// What a call is given, and asked about.
#[derive(Clone, Copy, Debug, PartialEq)]
pub enum Part {
    /// Room for a state.
    Room,
    State,
    Crumbs,
    Line,
    Place,
    Points,
    /// A guide to point an arrow, and room for one.
    Guide,
    Written,
    RebuildRoom,
    Rebuild,
    File,
    /// A line to thin, and how.
    Thinning,
}

pub struct Call {
    pub name: &'static str,
    pub parts: &'static [Part],
    pub make: fn(&mut Given) -> u8,
}

use Part::{
    Crumbs, File, Guide, Line, Place, Points, Rebuild, RebuildRoom, Room, State, Thinning, Written,
};

pub const CALLS: [Call; 27] = [
    Call {
        name: "new",
        parts: &[Room, Crumbs],
        make: |g| door::new(&mut g.words, &mut g.numbers, &g.crumbs),
    },
    Call {
        name: "reset",
        parts: &[Room, State],
        make: |g| door::reset(&mut g.words, &mut g.numbers),
    },
    Call {
        name: "set_course",
        parts: &[Room, State, Line, Points],
        make: |g| door::set_course(&mut g.words, &mut g.numbers, &mut g.line, &g.lats, &g.lons),
    },
    Call {
        name: "set_auto_follow 0",
        parts: &[Room, State, Crumbs],
        make: |g| door::set_auto_follow(&mut g.words, &mut g.numbers, &mut g.crumbs, 0),
    },
    Call {
        name: "set_auto_follow 1",
        parts: &[Room, State, Crumbs],
        make: |g| door::set_auto_follow(&mut g.words, &mut g.numbers, &mut g.crumbs, 1),
    },
    Call {
        name: "observe",
        parts: &[Room, State, Crumbs, Line, Place],
        make: |g| {
            let Given { words, numbers, crumbs, line, lat, lon, told, .. } = g;
            door::observe(words, numbers, crumbs, line, *lat, *lon, 60_000, &mut told.byte)
        },
    },
    Call {
        name: "observe_missing",
        parts: &[Room, State, Crumbs, Line],
        make: |g| {
            let Given { words, numbers, crumbs, line, told, .. } = g;
            door::observe_missing(words, numbers, crumbs, line, 60_000, &mut told.byte)
        },
    },
    Call {
        name: "replay",
        parts: &[Room, State, Crumbs, Place],
        make: |g| door::replay(&mut g.words, &mut g.numbers, &mut g.crumbs, g.lat, g.lon, 60_000),
    },
    Call {
        name: "end_replay",
        parts: &[Room, State],
        make: |g| door::end_replay(&mut g.words, &mut g.numbers),
    },
    Call {
        name: "set_following 0",
        parts: &[Room, State, Crumbs, Line],
        make: |g| {
            let Given { words, numbers, crumbs, line, told, .. } = g;
            door::set_following(words, numbers, crumbs, line, 0, 60_000, &mut told.byte)
        },
    },
    Call {
        name: "set_following 1",
        parts: &[Room, State, Crumbs, Line],
        make: |g| {
            let Given { words, numbers, crumbs, line, told, .. } = g;
            door::set_following(words, numbers, crumbs, line, 1, 60_000, &mut told.byte)
        },
    },
    Call {
        name: "len",
        parts: &[Room, State],
        make: |g| door::len(&g.words, &g.numbers, &mut g.told.size),
    },
    Call {
        name: "following",
        parts: &[Room, State],
        make: |g| door::following(&g.words, &g.numbers, &mut g.told.byte),
    },
    Call {
        name: "following_course",
        parts: &[Room, State],
        make: |g| door::following_course(&g.words, &g.numbers, &mut g.told.byte),
    },
    Call {
        name: "course_ahead",
        parts: &[Room, State],
        make: |g| door::course_ahead(&g.words, &g.numbers, &mut g.told.ahead),
    },
    Call {
        name: "route_home",
        parts: &[Room, State],
        make: |g| door::route_home(&g.words, &g.numbers, &mut g.told.ahead),
    },
    Call {
        name: "heading",
        parts: &[Room, State],
        make: |g| door::heading(&g.words, &g.numbers, &mut g.told.byte, &mut g.told.short),
    },
    Call {
        name: "guide",
        parts: &[Room, State, Written],
        make: |g| door::guide(&g.words, &g.numbers, &mut g.told.byte, &mut g.written),
    },
    Call {
        name: "way_back",
        parts: &[Room, State, Crumbs],
        make: |g| door::way_back(&g.words, &g.numbers, &g.crumbs, &mut g.told.back),
    },
    Call {
        name: "crumbs",
        parts: &[Room, State, Crumbs],
        make: |g| door::crumbs(&g.words, &g.numbers, &g.crumbs, &mut g.told.size),
    },
    Call {
        name: "course",
        parts: &[Room, State, Line],
        make: |g| door::course(&g.words, &g.numbers, &g.line, &mut g.told.size),
    },
    Call { name: "arrow", parts: &[Guide], make: |g| door::arrow(&g.guide, &mut g.told.short) },
    Call {
        name: "rebuild_new",
        parts: &[RebuildRoom],
        make: |g| door::rebuild_new(&mut g.rebuild, 7, 3),
    },
    Call {
        name: "rebuild_step",
        parts: &[Room, State, Crumbs, RebuildRoom, Rebuild, File],
        make: |g| {
            let Given { words, numbers, crumbs, rebuild, file, told, .. } = g;
            door::rebuild_step(rebuild, words, numbers, crumbs, file, 2, 2, &mut told.byte)
        },
    },
    Call {
        name: "rebuild_caught_up",
        parts: &[RebuildRoom, Rebuild],
        make: |g| door::rebuild_caught_up(&g.rebuild, 3, &mut g.told.byte),
    },
    Call {
        name: "rebuild_settle",
        parts: &[Room, State, RebuildRoom, Rebuild],
        make: |g| door::rebuild_settle(&mut g.rebuild, &mut g.words, &mut g.numbers, 1, 1_000),
    },
    Call {
        name: "thin",
        parts: &[Thinning],
        make: |g| {
            let (mut tolerance, mut refused) = (f32::from_bits(g.tolerance), 0);
            let left =
                door::thin(&mut g.thinned, g.held, &mut tolerance, &mut g.told.size, &mut refused);
            g.tolerance = tolerance.to_bits();
            g.held = if refused == 0 { left } else { g.held };
            refused
        },
    },
];
