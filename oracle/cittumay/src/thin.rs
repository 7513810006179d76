//! Thinning a line of crumbs alone.
use crate::{Refusal, door, taken};

/// What a thinning left.
#[derive(Clone, Copy, Debug, PartialEq)]
pub struct Thinned {
    pub len: usize,
    /// That of the last pass.
    pub tolerance: f32,
    pub passes: usize,
}

/// Thins the first `len` crumbs in place, three numbers a crumb, until at most three quarters of the
/// buffer are in use.
pub fn thin(crumbs: &mut [f32], len: usize, mut tolerance: f32) -> Result<Thinned, Refusal> {
    let (mut passes, mut refused) = (0, 0);
    let len = door::thin(crumbs, len, &mut tolerance, &mut passes, &mut refused);
    taken(refused, Thinned { len, tolerance, passes })
}
