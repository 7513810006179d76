//! The words that a program is started with, and how it ends: with 0; with 1 where what it looks for is
//! wrong; with 2 where its words or a file are.
use std::env::{self, ArgsOs};
use std::io::{self, Read, Write};
use std::iter::Skip;
use std::path::PathBuf;
use std::process::ExitCode;
use std::str::FromStr;

/// The words that are not read yet.
pub struct Words(Skip<ArgsOs>);

impl Iterator for Words {
    type Item = String;

    fn next(&mut self) -> Option<String> {
        self.0.next().map(|word| word.to_string_lossy().into_owned())
    }
}

impl Words {
    /// The number behind an option.
    pub fn number<T: FromStr>(&mut self, option: &str) -> Result<T, String> {
        let word = self.next().ok_or_else(|| format!("no number behind {option}"))?;
        word.parse().map_err(|_| format!("not a number behind {option}: {word}"))
    }

    /// The next word, as a path. One that looks like an option is none.
    pub fn path(&mut self) -> Result<PathBuf, String> {
        let path = self.0.next().ok_or("a path is missing")?;
        let word = path.to_string_lossy();
        if word.starts_with("--") { unknown(&word) } else { Ok(path.into()) }
    }
}

/// The program has no such word.
pub fn unknown<T>(word: &str) -> Result<T, String> {
    Err(format!("unknown: {word}"))
}

/// For a program that takes no words.
pub fn none(_: &mut Words) -> Result<(), String> {
    Ok(())
}

/// A program: `read` takes its words, and what it leaves is too much; `run` answers whether all is well.
/// `--help` is answered with the usage, wrong words with the usage's first line.
pub fn program<O>(
    usage: &str,
    read: impl FnOnce(&mut Words) -> Result<O, String>,
    run: impl FnOnce(O) -> Result<bool, String>,
) -> ExitCode {
    if env::args_os().skip(1).any(|word| word == "--help") {
        return ended(print(usage).map(|()| true));
    }
    let mut words = Words(env::args_os().skip(1));
    let options = read(&mut words).and_then(|options| match words.next() {
        None => Ok(options),
        Some(word) => unknown(&word),
    });
    match options {
        Ok(options) => ended(run(options)),
        Err(error) => {
            let line = usage.lines().next().unwrap_or_default();
            ended(Err(format!("{error}\n{line}")))
        }
    }
}

fn ended(ran: Result<bool, String>) -> ExitCode {
    match ran {
        Ok(true) => ExitCode::SUCCESS,
        Ok(false) => ExitCode::from(1),
        Err(error) => {
            eprintln!("{error}");
            ExitCode::from(2)
        }
    }
}

/// Standard input, to its end.
pub fn input() -> Result<Vec<u8>, String> {
    let mut bytes = Vec::new();
    let read = io::stdin().read_to_end(&mut bytes);
    read.map(|_| bytes).map_err(|error| format!("standard input: {error}"))
}

/// The same, as text.
pub fn input_text() -> Result<String, String> {
    String::from_utf8(input()?).map_err(|error| format!("standard input: {error}"))
}

pub fn print(text: impl AsRef<[u8]>) -> Result<(), String> {
    let mut out = io::stdout().lock();
    let written = out.write_all(text.as_ref()).and_then(|()| out.flush());
    written.map_err(|error| format!("standard output: {error}"))
}

/// The options of a comparison: `[--full] [--seed N] [--self-test]`.
pub struct Options {
    pub full: bool,
    pub seed: u64,
    pub self_test: bool,
}

impl Options {
    pub fn read(words: &mut Words) -> Result<Self, String> {
        Self::read_with(words, |word, _| unknown(word))
    }

    /// `other` takes an option that only one comparison has, and what follows it.
    pub fn read_with(
        words: &mut Words,
        mut other: impl FnMut(&str, &mut Words) -> Result<(), String>,
    ) -> Result<Self, String> {
        let mut options = Self { full: false, seed: 1, self_test: false };
        while let Some(word) = words.next() {
            match word.as_str() {
                "--full" => options.full = true,
                "--self-test" => options.self_test = true,
                "--seed" => options.seed = words.number(&word)?,
                _ => other(&word, words)?,
            }
        }
        Ok(options)
    }
}
