//! Reading scripts.
use super::{Call, Question, Script, Spoil, Thin};
use crate::Place;
use crate::chain::{Raw, RawSample};
use crate::prepared::Prepared;
use std::str::{FromStr, SplitWhitespace};

/// The most points of a course, and the most places of a line.
const POINTS: usize = 2_048;
/// The most numbers of a buffer that `thin` is given.
const THIN_SIZE: usize = 12_291;

impl Call {
    fn read(word: &str, numbers: &mut Numbers) -> Result<Self, String> {
        Ok(match word {
            "reset" => Self::Reset,
            "observe" => Self::Observe(Some(numbers.place()?), numbers.next()?),
            "missing" => Self::Observe(None, numbers.next()?),
            "replay" => Self::Replay(numbers.place()?, numbers.next()?),
            "end_replay" => Self::EndReplay,
            "set_course" => Self::SetCourse(numbers.places()?),
            "set_auto_follow" => Self::SetAutoFollow(numbers.flag()?),
            "set_following" => Self::SetFollowing(numbers.flag()?, numbers.next()?),
            "dump" => Self::Dump,
            "thin" => Self::Thin(numbers.thin()?),
            "rebuild" => Self::Rebuild(numbers.next()?, numbers.next()?),
            "step" => Self::Step(numbers.next()?, numbers.next()?),
            "settle" => Self::Settle(numbers.flag()?, numbers.next()?),
            "caught_up" => Self::CaughtUp(numbers.next()?),
            "spoil" => Self::Spoil(numbers.spoil()?),
            "record" => Self::Record(numbers.record()?),
            "bytes" => Self::Bytes(numbers.next()?),
            _ => {
                let question = Question::ALL.into_iter().find(|question| question.word() == word);
                Self::Ask(question.ok_or_else(|| format!("no such call: {word}"))?)
            }
        })
    }
}

/// The numbers behind a word. A guide has its buffers from `new`, where those that document 01's
/// questions would refuse are an error.
struct Numbers<'a>(SplitWhitespace<'a>);

impl Numbers<'_> {
    fn next<T: FromStr>(&mut self) -> Result<T, String> {
        let word = self.0.next().ok_or("a number is missing")?;
        word.parse().map_err(|_| format!("not a number here: {word}"))
    }

    fn more(&self) -> bool {
        self.0.clone().next().is_some()
    }

    fn flag(&mut self) -> Result<bool, String> {
        match self.next()? {
            0u8 => Ok(false),
            1 => Ok(true),
            other => Err(format!("not 0 or 1: {other}")),
        }
    }

    fn place(&mut self) -> Result<Place, String> {
        Ok((self.next()?, self.next()?))
    }

    /// The places up to the line's end.
    fn places(&mut self) -> Result<Vec<Place>, String> {
        let mut places = Vec::new();
        while self.more() {
            places.push(self.place()?);
        }
        let many = places.len() > POINTS;
        if many { Err("a course of more than 2,048 points".to_owned()) } else { Ok(places) }
    }

    fn thin(&mut self) -> Result<Thin, String> {
        let thin = Thin { size: self.next()?, len: self.next()?, tolerance: self.next()? };
        let long = thin.size > THIN_SIZE;
        if long { Err("a buffer of more than 12,291 numbers".to_owned()) } else { Ok(thin) }
    }

    fn spoil(&mut self) -> Result<Spoil, String> {
        let spoil = Spoil { question: self.next()?, which: self.next()? };
        let known = |&(question, ways): &_| question == spoil.question && spoil.which < ways;
        let Spoil { question, which } = spoil;
        let spoils = Spoil::WAYS.iter().any(known);
        if spoils { Ok(spoil) } else { Err(format!("nothing to spoil: {question} {which}")) }
    }

    /// A record, with the samples up to the line's end.
    fn record(&mut self) -> Result<Raw, String> {
        let (next, ride, kind, count) = (self.next()?, self.next()?, self.next()?, self.next()?);
        let mut record = Raw { next, ride, kind, count, ..Raw::default() };
        for sample in &mut record.samples {
            if self.more() {
                let (flags, place) = (self.next()?, self.place()?);
                *sample = RawSample { flags, place, utc_ms: self.next()? };
            }
        }
        Ok(record)
    }

    fn script(&mut self) -> Result<Script, String> {
        let (capacity, room) = (self.next()?, self.next()?);
        refuse(1, !(8..=4_096).contains(&capacity))?;
        refuse(4, room > POINTS)?;
        Ok(Script { capacity, room, calls: Vec::new() })
    }

    fn end(&mut self) -> Result<(), String> {
        self.0.next().map_or(Ok(()), |word| Err(format!("too much: {word}")))
    }
}

fn refuse(number: u8, when: bool) -> Result<(), String> {
    if when { Err(format!("refused by question {number}")) } else { Ok(()) }
}

/// The scripts of a text.
pub fn read(text: &str) -> Result<Vec<Script>, String> {
    let (mut scripts, mut prepared) = (Vec::new(), Prepared::default());
    for (k, line) in text.lines().enumerate() {
        read_line(line, &mut scripts, &mut prepared)
            .map_err(|error| format!("line {}: {error}", k + 1))?;
    }
    Ok(scripts)
}

/// A line, with what the lines before it have prepared.
fn read_line(line: &str, scripts: &mut Vec<Script>, prepared: &mut Prepared) -> Result<(), String> {
    let line = line.split_once('#').map_or(line, |(call, _)| call);
    let mut words = line.split_whitespace();
    let Some(word) = words.next() else {
        return Ok(());
    };
    let mut numbers = Numbers(words);
    if word == "new" {
        scripts.push(numbers.script()?);
        *prepared = Prepared::default();
    } else {
        let script = scripts.last_mut().ok_or("a script begins with `new`")?;
        let call = Call::read(word, &mut numbers)?;
        prepared.take_up(&call)?;
        prepared.spent(&call);
        script.calls.push(call);
    }
    numbers.end()
}
