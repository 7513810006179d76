/// What is private above, for the comparison. Follows the copy of homing.rs; see build.rs.
pub mod probe {
    use super::{Crumb, Homing, Line, Point};
    use crate::state::State;

    pub fn distance(a: Point, b: Point) -> f32 {
        super::distance(a, b)
    }

    pub fn project(p: Point, a: Point, b: Point) -> (Point, f32) {
        super::project(p, a, b)
    }

    pub fn off_segment(p: Point, a: Point, b: Point) -> f32 {
        super::off_segment(p, a, b)
    }

    pub fn bearing(from: Point, to: Point) -> u16 {
        super::bearing(from, to)
    }

    pub fn metres(value: f32) -> u32 {
        super::metres(value)
    }

    pub fn east_per_e7(lat_e7: i32) -> f32 {
        super::east_per_e7(lat_e7)
    }

    /// `Homing::frame`, once `homing` has this origin and this east factor.
    pub fn frame(
        homing: &mut Homing,
        origin: (i32, i32),
        east_per_e7: f32,
        (lat, lon): (i32, i32),
    ) -> Point {
        homing.origin = Some(origin);
        homing.east_per_e7 = east_per_e7;
        homing.frame(lat, lon)
    }

    /// Another guide as this one is, over buffers as long as its own. Turns are not measured: it has no
    /// room for them.
    pub fn again<'a>(
        homing: &'a Homing,
        crumbs: &'a mut [Crumb],
        line: &'a mut [Crumb],
    ) -> Homing<'a> {
        crumbs.copy_from_slice(homing.crumbs);
        line.copy_from_slice(homing.line);
        Homing { crumbs, line, turns: &mut [], ..*homing }
    }

    pub fn state(homing: &Homing) -> State {
        State {
            capacity: homing.crumbs.len(),
            len: homing.len,
            tolerance: homing.tolerance,
            window_len: homing.window_len,
            line_len: homing.line_len,
            unplaced: homing.unplaced,
            join_fixes: homing.join_fixes,
            origin: homing.origin,
            east_per_e7: homing.east_per_e7,
            fed: homing.fed,
            here: homing.here,
            here_ms: homing.here_ms,
            heading: homing.heading,
            breadcrumb: homing.following == Some(Line::Breadcrumb),
            course: homing.following == Some(Line::Course),
            matched: homing.matched.is_some(),
            retrace: homing.retrace,
            off: homing.off,
            arrived: homing.arrived,
            updated_ms: homing.updated_ms,
        }
    }
}
