/// What is private above, for the comparison. Follows each copy of rebuild.rs; see build.rs.
pub mod probe {
    use super::{Rebuild, Stage};
    use crate::state::RebuildState;

    pub fn state(rebuild: &Rebuild) -> RebuildState {
        let (decided, last_utc) = match rebuild.stage {
            Stage::Pending { last_utc } => (false, last_utc),
            Stage::Decided => (true, None),
        };
        RebuildState { slot: rebuild.walk.next, clock_ms: rebuild.clock_ms, decided, last_utc }
    }
}
