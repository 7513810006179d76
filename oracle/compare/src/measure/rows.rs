//! The rows that a measuring program has, the words that choose among them, and their tables.
use super::machine::Moment;
use crate::options::{Words, print, unknown};
use std::collections::HashMap;

/// The fewest runs of each side, and those made unless another number is given.
const LEAST: usize = 5;
const RUNS: usize = 25;

/// What a row is measured with, given the number of runs; none where the two sides differ.
type Measure = Box<dyn FnOnce(usize) -> Option<Measured>>;

pub struct Row {
    /// By which it is chosen: lower case, without spaces.
    pub name: String,
    /// What a reader is told.
    pub title: String,
    pub measure: Measure,
}

impl Row {
    pub fn new(
        name: impl Into<String>,
        title: impl Into<String>,
        measure: impl FnOnce(usize) -> Option<Measured> + 'static,
    ) -> Self {
        Self { name: name.into(), title: title.into(), measure: Box::new(measure) }
    }
}

/// What is told of a row, behind its title, and the medians of both sides.
pub struct Measured {
    pub cells: Vec<String>,
    pub proved: f64,
    pub rust: f64,
}

pub struct Table {
    /// By which it is found in the Markdown.
    pub name: &'static str,
    /// Over the title, and over the cells of a row.
    pub head: Vec<&'static str>,
    pub rows: Vec<Row>,
}

/// The words `[--runs N] [--markdown] [--list] [ROW..]`.
pub struct Options {
    pub runs: usize,
    pub markdown: bool,
    pub list: bool,
    /// The rows to measure; none for all.
    pub chosen: Vec<String>,
}

impl Options {
    pub fn read(words: &mut Words, tables: &[Table]) -> Result<Self, String> {
        Self::read_with(words, tables, |word, _| unknown(word))
    }

    /// `other` takes an option that only one program has, and what follows it.
    pub fn read_with(
        words: &mut Words,
        tables: &[Table],
        mut other: impl FnMut(&str, &mut Words) -> Result<(), String>,
    ) -> Result<Self, String> {
        let mut options = Self { runs: RUNS, markdown: false, list: false, chosen: Vec::new() };
        while let Some(word) = words.next() {
            match word.as_str() {
                "--markdown" => options.markdown = true,
                "--list" => options.list = true,
                "--runs" => options.runs = words.number(&word)?,
                _ if word.starts_with("--") => other(&word, words)?,
                _ if rows(tables).any(|row| chooses(&word, &row.name)) => options.chosen.push(word),
                _ => unknown(&word)?,
            }
        }
        if options.runs < LEAST {
            return Err(format!("fewer than {LEAST} runs: {}", options.runs));
        }
        Ok(options)
    }

    fn chooses(&self, row: &Row) -> bool {
        self.chosen.is_empty() || self.chosen.iter().any(|word| chooses(word, &row.name))
    }
}

fn rows(tables: &[Table]) -> impl Iterator<Item = &Row> {
    tables.iter().flat_map(|table| &table.rows)
}

/// A word chooses the row of this name, and those whose names go on behind it with a hyphen.
fn chooses(word: &str, name: &str) -> bool {
    name.strip_prefix(word).is_some_and(|rest| rest.is_empty() || rest.starts_with('-'))
}

/// What was measured, by the rows' names.
pub type Results = HashMap<String, Measured>;

/// Measures the chosen rows and prints each as soon as it is measured; none where the two sides of a row
/// differ. With `--list` the rows are told, and none is measured.
pub fn measure(tables: Vec<Table>, options: &Options) -> Result<Option<Results>, String> {
    let mut results = Results::new();
    if options.list {
        for row in rows(&tables) {
            print(format!("{:<18}{}\n", row.name, row.title))?;
        }
        return Ok(Some(results));
    }
    for mut table in tables {
        table.rows.retain(|row| options.chooses(row));
        if !table.rows.is_empty() && !measure_table(table, options, &mut results)? {
            return Ok(None);
        }
    }
    Ok(Some(results))
}

fn measure_table(table: Table, options: &Options, results: &mut Results) -> Result<bool, String> {
    let mut head: Vec<_> = table.head.iter().map(|&cell| cell.to_owned()).collect();
    head.extend(["load before, after", "processors busy"].map(str::to_owned));
    let style = Style { markdown: options.markdown };
    print(style.head(table.name, &head))?;
    for Row { name, title, measure } in table.rows {
        let before = Moment::now();
        let Some(measured) = measure(options.runs) else {
            print(format!("{name}: the two sides differ\n"))?;
            return Ok(false);
        };
        let mut line = vec![if options.markdown { title } else { name.clone() }];
        line.extend(measured.cells.iter().cloned().chain(before.until_now()));
        print(style.line(&line, &head))?;
        results.insert(name, measured);
    }
    print("\n")?;
    Ok(true)
}

/// How a table is written: as Markdown, or in columns.
pub struct Style {
    pub markdown: bool,
}

impl Style {
    /// A table's first lines. In Markdown its name stands before it, where a reader does not see it.
    pub fn head(&self, name: &str, head: &[String]) -> String {
        if !self.markdown {
            return self.line(head, head);
        }
        let rule = format!("|---{}|\n", "|--:".repeat(head.len() - 1));
        format!("<!-- {name} -->\n{}{rule}", self.line(head, head))
    }

    pub fn line(&self, cells: &[String], head: &[String]) -> String {
        if self.markdown {
            return format!("| {} |\n", cells.join(" | "));
        }
        let column = |(k, (cell, head)): (usize, (&String, &String))| match k {
            0 => format!("{cell:<18}"),
            _ => format!("  {cell:>0$}", width(head)),
        };
        let columns: String = cells.iter().zip(head).enumerate().map(column).collect();
        columns.replace('`', "") + "\n"
    }
}

/// The characters of a column under this head: a time is told with its spread.
fn width(head: &str) -> usize {
    let time = [" ns", " µs"].iter().any(|unit| head.ends_with(unit));
    if time { 22 } else { head.chars().count().max(6) }
}
