//! What the lines of a script that are no calls prepare for the next call.
use crate::chain::{MOST, RECORD};
use crate::script::{Call, Script, Spoil};

/// The longest chain file: one record more than question 6 takes.
const LONGEST: usize = RECORD * (MOST + 1);

#[derive(Default)]
pub struct Prepared {
    /// The chain file.
    pub file: Vec<u8>,
    /// What the next call is given in place of its own, at most one thing by each question.
    pub spoils: Vec<Spoil>,
}

impl Prepared {
    /// Takes up a line that is no call. An error where it may not stand here.
    pub fn take_up(&mut self, line: &Call) -> Result<(), String> {
        match line {
            Call::Spoil(spoil) if self.spoiled(spoil.question).is_some() => {
                return Err(format!("spoiled twice: {}", spoil.question));
            }
            Call::Spoil(spoil) => self.spoils.push(*spoil),
            Call::Record(record) => {
                fits(self.file.len() + RECORD)?;
                self.file.extend(record.bytes());
            }
            Call::Bytes(size) => {
                fits(*size)?;
                self.file.resize(*size, 0);
            }
            _ => {}
        }
        Ok(())
    }

    /// Behind a call it has its own again.
    pub fn spent(&mut self, call: &Call) {
        if !call.prepares() {
            self.spoils.clear();
        }
    }

    /// How many numbers a call is lent for crumbs, where the guide has so many of its own.
    pub fn crumbs_lent(spoiled: Option<u8>, own: usize) -> usize {
        spoiled.map_or(own, |which| [own + 1, 21][usize::from(which)])
    }

    /// The same for the line.
    pub fn line_lent(spoiled: Option<u8>, own: usize) -> usize {
        spoiled.map_or(own, |which| [own + 1, 6_147][usize::from(which)])
    }

    /// Which of the things that this question refuses the next call is given.
    pub fn spoiled(&self, question: u8) -> Option<u8> {
        let spoil = self.spoils.iter().find(|spoil| spoil.question == question);
        spoil.map(|spoil| spoil.which)
    }
}

fn fits(size: usize) -> Result<(), String> {
    let long = size > LONGEST;
    if long { Err("a chain file of more than 683 records".to_owned()) } else { Ok(()) }
}

/// Whether each line of a script may stand where it does.
pub fn check(script: &Script) -> Result<(), String> {
    let mut prepared = Prepared::default();
    script.calls.iter().try_for_each(|call| {
        prepared.take_up(call)?;
        prepared.spent(call);
        Ok(())
    })
}
