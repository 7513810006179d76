//! The Rust as document 01 has it compared: unchanged inside the domain; from where that ends until
//! the next reset, with the additions. Document 01's questions come first.
use crate::chain::Record;
use crate::homing::{Lent, Rebuilt, Unasked};
use crate::prepared::Prepared;
use crate::questions::{Verdict, verdict};
use crate::script::{Call, Script};
use crate::step::{Step, why};
use crate::transcript::{Answer, Told};
use vana::notes::{self, Note};
use vana::{added, ride};

/// What is lent to both.
pub struct Buffers(Lent<ride::homing::Crumb>, Lent<added::homing::Crumb>);

impl Buffers {
    pub fn of(script: &Script) -> Self {
        Self(Lent::to(script), Lent::to(script))
    }
}

type Unchanged<'a> = Rebuilt<ride::homing::Homing<'a>, ride::homing::rebuild::Rebuild>;
type Added<'a> = Rebuilt<added::homing::Homing<'a>, added::homing::rebuild::Rebuild>;

/// Both perform every call. Inside the domain they have to answer the same.
pub struct Original<'a> {
    unchanged: Unchanged<'a>,
    added: Added<'a>,
    prepared: Prepared,
    inside: bool,
    room: usize,
}

/// Why the domain ended in a call, and whether it began again.
#[derive(Default)]
struct Crossed {
    leaves: Option<&'static str>,
    returns: bool,
}

impl<'a> Original<'a> {
    pub fn new(Buffers(unchanged, added): &'a mut Buffers) -> Self {
        Self {
            room: unchanged.line.len(),
            unchanged: Unchanged::new(unchanged),
            added: Added::new(added),
            prepared: Prepared::default(),
            inside: true,
        }
    }

    pub fn step<'c>(&mut self, call: &'c Call) -> Step<'c> {
        let (before, rebuild) = (self.chosen().state(), self.chosen().rebuild());
        self.prepared.take_up(call).expect("a line that may stand here");
        let spoiled = !call.prepares() && !self.prepared.spoils.is_empty();
        let Verdict { noes, entries } = verdict(call, &self.prepared, self.room);
        let [unchanged, added] = self.perform(call, noes.first(), &entries);
        self.prepared.spent(call);
        let notes = notes::take();
        let Crossed { leaves, returns } = self.cross(&notes);
        let answer = if self.inside { unchanged.clone() } else { added.clone() };
        let (after, told, inside) = (self.chosen().state(), self.told(), self.inside);
        if inside {
            let same = added == unchanged && self.added.told() == told;
            assert!(same, "{call}: the additions act inside the domain");
        }
        Step {
            call,
            answer,
            noes,
            before,
            after,
            rebuild,
            told,
            notes,
            spoiled,
            inside,
            leaves,
            returns,
        }
    }

    fn perform(&mut self, call: &Call, no: Option<&u8>, entries: &[Record]) -> [Answer; 2] {
        match no {
            Some(question) => [(); 2].map(|()| Answer::Refused(*question)),
            None => [self.unchanged.perform(call, entries), self.added.perform(call, entries)],
        }
    }

    /// Where the domain ends and begins again, by what the copy with the additions noted in a call.
    /// Inside, the unchanged Rust has the same state and does the same. A reset is made by the call, or
    /// by the rebuild, which reads nothing of the guide: so both copies make it at the same place. It
    /// sets all that the additions set (`retrace`, `following`, `segment`, `matched`, `off`), and of what
    /// can differ by them until then it leaves only what is written before it is next read: the crumbs,
    /// since `len` is 0; `retrace_len`, since `retrace` is; `course_along`, `course_reached`,
    /// `course_fix`, `join_end` and `reminded_ms`, which a follow sets when it begins; `heading_ms`,
    /// which the next heading sets; `updated_ms`, which the next fix sets. So behind a reset the two are
    /// one guide again, in the middle of a call too.
    fn cross(&mut self, notes: &[Note]) -> Crossed {
        let mut crossed = Crossed::default();
        for note in notes {
            match note {
                Note::Reset => {
                    crossed.returns |= !self.inside;
                    self.inside = true;
                }
                Note::Thinning(thinning) => {
                    if let Some(why) = why(thinning).filter(|_| self.inside) {
                        crossed.leaves = crossed.leaves.or(Some(why));
                        self.inside = false;
                    }
                }
            }
        }
        crossed
    }

    fn chosen(&self) -> &dyn Unasked {
        if self.inside { &self.unchanged } else { &self.added }
    }

    pub fn told(&self) -> Told {
        self.chosen().told()
    }
}
