//! Of a guide's private state what the coverage of a script reads, and a rebuild's.
#[derive(Clone, Copy)]
pub struct State {
    pub capacity: usize,
    pub len: usize,
    pub tolerance: f32,
    pub window_len: usize,
    pub line_len: usize,
    pub unplaced: bool,
    pub join_fixes: u8,
    pub origin: Option<(i32, i32)>,
    pub east_per_e7: f32,
    pub fed: Option<(i32, i32)>,
    pub here: Option<(f32, f32)>,
    pub here_ms: u64,
    pub heading: Option<u16>,
    pub breadcrumb: bool,
    pub course: bool,
    pub matched: bool,
    pub retrace: u8,
    pub off: bool,
    pub arrived: bool,
    pub updated_ms: u64,
}

#[derive(Clone, Copy, Debug, PartialEq)]
pub struct RebuildState {
    /// The next slot to look at.
    pub slot: usize,
    pub clock_ms: u64,
    pub decided: bool,
    /// When the recovered ride's latest fix was, if known; none once decided.
    pub last_utc: Option<u64>,
}
