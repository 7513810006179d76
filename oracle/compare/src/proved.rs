//! The proved code, from libdoor.a and libnumbers_door.a. Each function takes its input as one value,
//! as in `reference`.
#![allow(unsafe_code)]
use crate::thinning::Answer;
use crate::{Framing, Point};
use cittumay::door;

unsafe extern "C" {
    safe fn cittumay_sqrtf(x: f32) -> f32;
    safe fn cittumay_as_u32(x: f32) -> u32;
    safe fn cittumay_as_f32(d: i64) -> f32;
    safe fn cittumay_clamp(x: f32) -> f32;
    safe fn cittumay_max_zero(x: f32) -> f32;
    safe fn cittumay_cosf(r: f32) -> f32;
    safe fn cittumay_atan2f(east: f32, north: f32) -> f32;
    safe fn cittumay_distance(a_east: f32, a_north: f32, b_east: f32, b_north: f32) -> f32;
    safe fn cittumay_project(
        p_east: f32,
        p_north: f32,
        a_east: f32,
        a_north: f32,
        b_east: f32,
        b_north: f32,
        east: &mut f32,
        north: &mut f32,
    ) -> f32;
    safe fn cittumay_off_segment(
        p_east: f32,
        p_north: f32,
        a_east: f32,
        a_north: f32,
        b_east: f32,
        b_north: f32,
    ) -> f32;
    safe fn cittumay_bearing(from_east: f32, from_north: f32, to_east: f32, to_north: f32) -> u16;
    safe fn cittumay_metres(value: f32) -> u32;
    safe fn cittumay_east_per_e7(lat: i32) -> f32;
    safe fn cittumay_frame(
        lat0: i32,
        lon0: i32,
        east_per_e7: f32,
        lat: i32,
        lon: i32,
        east: &mut f32,
        north: &mut f32,
    );
}

pub fn sqrtf(x: f32) -> f32 {
    cittumay_sqrtf(x)
}

pub fn as_u32(x: f32) -> u32 {
    cittumay_as_u32(x)
}

pub fn as_f32(d: i64) -> f32 {
    cittumay_as_f32(d)
}

pub fn clamp(x: f32) -> f32 {
    cittumay_clamp(x)
}

pub fn max_zero(x: f32) -> f32 {
    cittumay_max_zero(x)
}

pub fn cosf(r: f32) -> f32 {
    cittumay_cosf(r)
}

pub fn atan2f((east, north): Point) -> f32 {
    cittumay_atan2f(east, north)
}

pub fn distance([a, b]: [Point; 2]) -> f32 {
    cittumay_distance(a.0, a.1, b.0, b.1)
}

pub fn project([p, a, b]: [Point; 3]) -> (Point, f32) {
    let (mut east, mut north) = (0.0, 0.0);
    let t = cittumay_project(p.0, p.1, a.0, a.1, b.0, b.1, &mut east, &mut north);
    ((east, north), t)
}

pub fn off_segment([p, a, b]: [Point; 3]) -> f32 {
    cittumay_off_segment(p.0, p.1, a.0, a.1, b.0, b.1)
}

pub fn bearing([from, to]: [Point; 2]) -> u16 {
    cittumay_bearing(from.0, from.1, to.0, to.1)
}

pub fn metres(value: f32) -> u32 {
    cittumay_metres(value)
}

pub fn east_per_e7(lat: i32) -> f32 {
    cittumay_east_per_e7(lat)
}

pub fn frame((origin, east_per_e7, place): Framing) -> Point {
    let (mut east, mut north) = (0.0, 0.0);
    cittumay_frame(origin.0, origin.1, east_per_e7, place.0, place.1, &mut east, &mut north);
    (east, north)
}

pub fn thin(crumbs: &mut [f32], len: usize, mut tolerance: f32) -> Answer {
    let (mut passes, mut refused) = (Answer::NO_PASSES, u8::MAX);
    let len = door::thin(crumbs, len, &mut tolerance, &mut passes, &mut refused);
    Answer { refused, len, tolerance, passes }
}
