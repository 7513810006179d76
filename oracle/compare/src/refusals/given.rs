//! What a call is given, good at first.
use cittumay::door::{self, Ahead, Back};
use cittumay::{GUIDE, NUMBERS, REBUILD_WORDS, STRIDE, WORDS};

/// Bytes of a chain file's record, and where the first sample begins.
const RECORD: usize = 96;
const SAMPLE: usize = 16;

#[derive(Clone)]
pub struct Given {
    pub words: Vec<u64>,
    pub numbers: Vec<f32>,
    pub crumbs: Vec<f32>,
    pub line: Vec<f32>,
    pub lat: i32,
    pub lon: i32,
    pub lats: Vec<i32>,
    pub lons: Vec<i32>,
    /// For `arrow`; for `guide` to write to.
    pub guide: Vec<u32>,
    pub written: Vec<u32>,
    pub rebuild: Vec<u64>,
    pub file: Vec<u8>,
    /// A line to thin, how many crumbs it holds, and the tolerance's pattern.
    pub thinned: Vec<f32>,
    pub held: usize,
    pub tolerance: u32,
    pub told: Told,
}

/// Where answers are written to.
#[derive(Clone)]
pub struct Told {
    pub byte: u8,
    pub short: u16,
    pub size: usize,
    pub ahead: Ahead,
    pub back: Back,
}

/// What nobody answers.
const NOBODY: Told = Told {
    byte: 0xA5,
    short: 0xA5A5,
    size: 0xA5A5,
    ahead: Ahead { known: 0xA5, count: 0xA5, matched: 0xA5, east: -5.5, north: -6.5 },
    back: Back { known: 0xA5, direct: 0xA5, track: 0xA5 },
};

impl Given {
    /// A guide that has kept crumbs and waits with more in its window, with a course; all slices are
    /// longer than they need be.
    pub fn good() -> Self {
        let mut given = Self {
            words: vec![0xABCD; WORDS + 3],
            numbers: vec![-7.5; NUMBERS + 3],
            crumbs: vec![-8.5; STRIDE * 16],
            line: vec![-9.5; STRIDE * 8],
            lat: 594_370_000,
            lon: 247_450_000,
            lats: vec![594_370_000, 594_380_000, 594_390_000],
            lons: vec![247_450_000, 247_460_000, 247_450_000],
            guide: vec![1, 1, 0, 0, 10, 20, 3, 1_024, 1, 4_095, 77],
            written: vec![99; GUIDE + 1],
            rebuild: vec![0xABCD; REBUILD_WORDS + 1],
            file: file(),
            thinned: (0..STRIDE * 16).map(|k| (k % 7) as f32).collect(),
            held: 16,
            tolerance: 6_f32.to_bits(),
            told: NOBODY,
        };
        given.ride();
        given
    }

    fn ride(&mut self) {
        let Self { words, numbers, crumbs, line, lats, lons, rebuild, .. } = self;
        let mut event = 0;
        assert_eq!(door::new(words, numbers, crumbs), 0);
        for k in 0..9 {
            let (lat, lon) = (594_370_000 + 4_000 * k, 247_450_000 + k % 3 * 9_000);
            let now_ms = 1_000 * k as u64;
            assert_eq!(
                door::observe(words, numbers, crumbs, line, lat, lon, now_ms, &mut event),
                0
            );
        }
        assert_eq!(door::set_course(words, numbers, line, lats, lons), 0);
        assert_eq!(door::rebuild_new(rebuild, 5, 2), 0);
    }

    pub fn patterns(&self) -> impl PartialEq + use<> {
        let patterns = |numbers: &[f32]| numbers.iter().map(|x| x.to_bits()).collect::<Vec<_>>();
        let Told { byte, short, size, ahead, back } = self.told.clone();
        (
            (self.words.clone(), patterns(&self.numbers), patterns(&self.crumbs)),
            (patterns(&self.line), self.lats.clone(), self.lons.clone(), self.file.clone()),
            (self.guide.clone(), self.written.clone(), self.rebuild.clone()),
            (patterns(&self.thinned), self.held, self.tolerance),
            (byte, short, size),
            (ahead.known, ahead.count, ahead.matched, ahead.east.to_bits(), ahead.north.to_bits()),
            (back.known, back.direct, back.track),
        )
    }

    /// A number of the file's record, written little-endian.
    pub fn record(&mut self, record: usize, at: usize, bytes: &[u8]) {
        let at = RECORD * record + at;
        if let Some(part) = self.file.get_mut(at..at + bytes.len()) {
            part.copy_from_slice(bytes);
        }
    }
}

/// Three records: the ride recovered, and two entries with a located sample.
fn file() -> Vec<u8> {
    let mut file = vec![0; 3 * RECORD];
    for (record, next) in [(0, 1), (1, 2), (2, 0)] {
        let at = RECORD * record;
        file[at] = next;
        file[at + 4] = 5;
        file[at + 8] = 1;
        file[at + 9] = 1;
        file[at + SAMPLE] = 1;
    }
    file
}
