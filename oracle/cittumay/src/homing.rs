//! The guide.
use crate::{Event, GUIDE, Guide, NUMBERS, Refusal, STRIDE, WORDS, door, taken};

/// The followed line's first points, that many, and then the point where the rider is, if matched yet.
pub type Ahead = (usize, Option<(f32, f32)>);

pub struct Homing<'a> {
    pub(crate) words: [u64; WORDS],
    pub(crate) numbers: [f32; NUMBERS],
    pub(crate) crumbs: &'a mut [f32],
    line: &'a mut [f32],
}

impl<'a> Homing<'a> {
    /// A breadcrumb in `crumbs`, three numbers a crumb; its room is the most crumbs kept.
    pub fn new(crumbs: &'a mut [f32]) -> Result<Self, Refusal> {
        let (mut words, mut numbers) = ([0; WORDS], [0.0; NUMBERS]);
        taken(door::new(&mut words, &mut numbers, crumbs), ())?;
        Ok(Self { words, numbers, crumbs, line: &mut [] })
    }

    /// A guide whose state was stored, with its crumbs in front in `crumbs`. What is no guide's state
    /// refuses every call.
    pub fn resumed(words: [u64; WORDS], numbers: [f32; NUMBERS], crumbs: &'a mut [f32]) -> Self {
        Self { words, numbers, crumbs, line: &mut [] }
    }

    /// The state, to be stored with the lent buffers.
    pub fn stored(&self) -> ([u64; WORDS], [f32; NUMBERS]) {
        (self.words, self.numbers)
    }

    /// Room for a course, three numbers a point; of a resumed guide the course that was placed in it.
    pub fn with_line(mut self, line: &'a mut [f32]) -> Self {
        self.line = line;
        self
    }

    pub fn reset(&mut self) -> Result<(), Refusal> {
        taken(door::reset(&mut self.words, &mut self.numbers), ())
    }

    /// The course to follow, start first: latitudes and longitudes side by side.
    pub fn set_course(&mut self, lats: &[i32], lons: &[i32]) -> Result<(), Refusal> {
        taken(door::set_course(&mut self.words, &mut self.numbers, self.line, lats, lons), ())
    }

    pub fn set_auto_follow(&mut self, on: bool) -> Result<(), Refusal> {
        let Self { words, numbers, crumbs, .. } = self;
        taken(door::set_auto_follow(words, numbers, crumbs, on.into()), ())
    }

    pub fn observe(
        &mut self,
        location_e7: Option<(i32, i32)>,
        now_ms: u64,
    ) -> Result<Option<Event>, Refusal> {
        let Self { words, numbers, crumbs, line } = self;
        let mut event = 0;
        let number = match location_e7 {
            Some((lat, lon)) => {
                door::observe(words, numbers, crumbs, line, lat, lon, now_ms, &mut event)
            }
            None => door::observe_missing(words, numbers, crumbs, line, now_ms, &mut event),
        };
        taken(number, Event::of(event))
    }

    pub fn replay(&mut self, (lat, lon): (i32, i32), at_ms: u64) -> Result<(), Refusal> {
        let Self { words, numbers, crumbs, .. } = self;
        taken(door::replay(words, numbers, crumbs, lat, lon, at_ms), ())
    }

    pub fn end_replay(&mut self) -> Result<(), Refusal> {
        taken(door::end_replay(&mut self.words, &mut self.numbers), ())
    }

    pub fn set_following(&mut self, follow: bool, now_ms: u64) -> Result<bool, Refusal> {
        let Self { words, numbers, crumbs, line } = self;
        let (on, mut following) = (follow.into(), 0);
        let number = door::set_following(words, numbers, crumbs, line, on, now_ms, &mut following);
        taken(number, following != 0)
    }

    pub fn len(&self) -> Result<usize, Refusal> {
        let mut len = 0;
        taken(door::len(&self.words, &self.numbers, &mut len), ())?;
        Ok(len)
    }

    pub fn is_empty(&self) -> Result<bool, Refusal> {
        Ok(self.len()? == 0)
    }

    pub fn following(&self) -> Result<bool, Refusal> {
        let mut flag = 0;
        taken(door::following(&self.words, &self.numbers, &mut flag), ())?;
        Ok(flag != 0)
    }

    pub fn following_course(&self) -> Result<bool, Refusal> {
        let mut flag = 0;
        taken(door::following_course(&self.words, &self.numbers, &mut flag), ())?;
        Ok(flag != 0)
    }

    /// While following the course.
    pub fn course_ahead(&self) -> Result<Option<Ahead>, Refusal> {
        let mut told = door::Ahead::default();
        taken(door::course_ahead(&self.words, &self.numbers, &mut told), ())?;
        Ok(ahead(told))
    }

    /// While following the breadcrumb.
    pub fn route_home(&self) -> Result<Option<Ahead>, Refusal> {
        let mut told = door::Ahead::default();
        taken(door::route_home(&self.words, &self.numbers, &mut told), ())?;
        Ok(ahead(told))
    }

    pub fn heading(&self) -> Result<Option<u16>, Refusal> {
        let (mut known, mut heading) = (0, 0);
        taken(door::heading(&self.words, &self.numbers, &mut known, &mut heading), ())?;
        Ok((known != 0).then_some(heading))
    }

    pub fn guide(&self) -> Result<Option<Guide>, Refusal> {
        let (mut shown, mut guide) = (0, [0; GUIDE]);
        taken(door::guide(&self.words, &self.numbers, &mut shown, &mut guide), ())?;
        Ok((shown != 0).then(|| Guide::of(guide)))
    }

    /// Metres straight to the start, and back over the track.
    pub fn way_back(&self) -> Result<Option<(u32, u32)>, Refusal> {
        let mut told = door::Back::default();
        taken(door::way_back(&self.words, &self.numbers, self.crumbs, &mut told), ())?;
        Ok((told.known != 0).then_some((told.direct, told.track)))
    }

    /// The kept crumbs, oldest first: the front part of the lent buffer.
    pub fn crumbs(&self) -> Result<&[f32], Refusal> {
        let mut len = 0;
        taken(door::crumbs(&self.words, &self.numbers, self.crumbs, &mut len), ())?;
        Ok(&self.crumbs[..STRIDE * len])
    }

    /// The course, end first: the front part of the lent line; empty until placed.
    pub fn course(&self) -> Result<&[f32], Refusal> {
        let mut len = 0;
        taken(door::course(&self.words, &self.numbers, self.line, &mut len), ())?;
        Ok(&self.line[..STRIDE * len])
    }
}

fn ahead(told: door::Ahead) -> Option<Ahead> {
    let point = (told.matched != 0).then_some((told.east, told.north));
    (told.known != 0).then_some((told.count, point))
}
