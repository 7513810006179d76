//! The exports of the static library `door`, on slices. Each but `thin` answers 0, or the number of the
//! question that refused the call.
#![allow(unsafe_code, clippy::too_many_arguments)]

/// The way on, as `course_ahead` and `route_home` write it.
#[derive(Clone, Copy, Debug, Default, PartialEq)]
pub struct Ahead {
    pub known: u8,
    pub count: usize,
    pub matched: u8,
    pub east: f32,
    pub north: f32,
}

/// The way back, as `way_back` writes it.
#[derive(Clone, Copy, Debug, Default, PartialEq)]
pub struct Back {
    pub known: u8,
    pub direct: u32,
    pub track: u32,
}

macro_rules! slice {
    (reads $item:ty) => {
        &[$item]
    };
    (writes $item:ty) => {
        &mut [$item]
    };
}

macro_rules! pointer {
    (reads $item:ty) => { *const $item };
    (writes $item:ty) => { *mut $item };
}

macro_rules! start {
    (reads $slice:ident) => {
        $slice.as_ptr()
    };
    (writes $slice:ident) => {
        $slice.as_mut_ptr()
    };
}

/// Functions on slices, and values behind them, over exports that have each slice as where it begins
/// and how long it is.
macro_rules! exports {
    ($($export:ident as $visible:vis $name:ident
        ($($slice:ident $kind:ident $item:ty),*; $($value:ident: $type:ty),*);)*) => {
        unsafe extern "C" {
            $(fn $export($($slice: pointer!($kind $item), _: usize,)* $($value: $type),*) -> u8;)*
        }
        $($visible fn $name($($slice: slice!($kind $item),)* $($value: $type),*) -> u8 {
            // SAFETY: each pointer and length is that of a slice lent for the call.
            unsafe { $export($(start!($kind $slice), $slice.len(),)* $($value),*) }
        })*
    };
}

exports! {
    cittumay_new as pub new(words writes u64, numbers writes f32, crumbs reads f32;);
    cittumay_reset as pub reset(words writes u64, numbers writes f32;);
    cittumay_set_course as pub set_course(
        words writes u64, numbers writes f32, line writes f32, lats reads i32, lons reads i32;);
    cittumay_set_auto_follow as pub set_auto_follow(
        words writes u64, numbers writes f32, crumbs writes f32; on: u8);
    cittumay_observe as pub observe(
        words writes u64, numbers writes f32, crumbs writes f32, line reads f32;
        lat: i32, lon: i32, now_ms: u64, event: &mut u8);
    cittumay_observe_missing as pub observe_missing(
        words writes u64, numbers writes f32, crumbs writes f32, line reads f32;
        now_ms: u64, event: &mut u8);
    cittumay_replay as pub replay(
        words writes u64, numbers writes f32, crumbs writes f32; lat: i32, lon: i32, at_ms: u64);
    cittumay_end_replay as pub end_replay(words writes u64, numbers writes f32;);
    cittumay_set_following as pub set_following(
        words writes u64, numbers writes f32, crumbs writes f32, line reads f32;
        on: u8, now_ms: u64, following: &mut u8);
    cittumay_len as pub len(words reads u64, numbers reads f32; len: &mut usize);
    cittumay_following as pub following(words reads u64, numbers reads f32; flag: &mut u8);
    cittumay_following_course as pub following_course(
        words reads u64, numbers reads f32; flag: &mut u8);
    cittumay_course_ahead as told_course_ahead(
        words reads u64, numbers reads f32;
        known: &mut u8, count: &mut usize, matched: &mut u8, east: &mut f32, north: &mut f32);
    cittumay_route_home as told_route_home(
        words reads u64, numbers reads f32;
        known: &mut u8, count: &mut usize, matched: &mut u8, east: &mut f32, north: &mut f32);
    cittumay_heading as pub heading(
        words reads u64, numbers reads f32; known: &mut u8, heading: &mut u16);
    cittumay_guide as told_guide(
        words reads u64, numbers reads f32; shown: &mut u8, guide: *mut u32, guide_len: usize);
    cittumay_way_back as told_way_back(
        words reads u64, numbers reads f32, crumbs reads f32;
        known: &mut u8, direct: &mut u32, track: &mut u32);
    cittumay_crumbs as pub crumbs(
        words reads u64, numbers reads f32, crumbs reads f32; len: &mut usize);
    cittumay_course as pub course(
        words reads u64, numbers reads f32, line reads f32; len: &mut usize);
    cittumay_arrow as pub arrow(guide reads u32; arrow: &mut u16);
    cittumay_rebuild_new as pub rebuild_new(rebuild writes u64; recovered: u32, upper: usize);
    cittumay_rebuild_step as pub rebuild_step(
        rebuild writes u64, words writes u64, numbers writes f32, crumbs writes f32, file reads u8;
        upper: usize, budget: usize, done: &mut u8);
    cittumay_rebuild_caught_up as pub rebuild_caught_up(
        rebuild reads u64; upper: usize, flag: &mut u8);
    cittumay_rebuild_settle as pub rebuild_settle(
        rebuild writes u64, words writes u64, numbers writes f32; known: u8, utc: u64);
}

pub fn course_ahead(words: &[u64], numbers: &[f32], told: &mut Ahead) -> u8 {
    let Ahead { known, count, matched, east, north } = told;
    told_course_ahead(words, numbers, known, count, matched, east, north)
}

pub fn route_home(words: &[u64], numbers: &[f32], told: &mut Ahead) -> u8 {
    let Ahead { known, count, matched, east, north } = told;
    told_route_home(words, numbers, known, count, matched, east, north)
}

pub fn way_back(words: &[u64], numbers: &[f32], crumbs: &[f32], told: &mut Back) -> u8 {
    let Back { known, direct, track } = told;
    told_way_back(words, numbers, crumbs, known, direct, track)
}

pub fn guide(words: &[u64], numbers: &[f32], shown: &mut u8, guide: &mut [u32]) -> u8 {
    told_guide(words, numbers, shown, guide.as_mut_ptr(), guide.len())
}

unsafe extern "C" {
    fn cittumay_thin(
        crumbs: *mut f32,
        crumbs_len: usize,
        len: usize,
        tolerance: &mut f32,
        passes: &mut usize,
        refused: &mut u8,
    ) -> usize;
}

/// Unlike the others it answers how many crumbs are left, and writes the question's number.
pub fn thin(
    crumbs: &mut [f32],
    len: usize,
    tolerance: &mut f32,
    passes: &mut usize,
    refused: &mut u8,
) -> usize {
    // SAFETY: the pointer and the length are those of a slice lent for the call.
    unsafe { cittumay_thin(crumbs.as_mut_ptr(), crumbs.len(), len, tolerance, passes, refused) }
}
