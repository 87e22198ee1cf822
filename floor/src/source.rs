//! What is asked about: a log that is there, or the log of a day in words.
use crate::day;
use crate::failure::{words, Failure};
use crate::files;
use crate::log::Log;
use crate::names::Names;
use crate::refusal;

pub struct Source {
    /// The file's name.
    pub name: String,
    pub log: Log,
    pub names: Names,
    /// For each line of the log the line of the day that it comes from.
    lines: Option<Vec<usize>>,
}

impl Source {
    /// A day in words.
    pub fn day(name: &str) -> Result<Source, Failure> {
        let called = files::called(name);
        let day = day::compile(called, &files::read_text(name)?).map_err(Failure::Words)?;
        let log = Log::read(&day.log).map_err(|r| Failure::Refused(refusal::refusal(called, Some(&day.lines), r)))?;
        Ok(Source { name: called.to_string(), log, names: day.names, lines: Some(day.lines) })
    }

    /// A log, and a file with names of its stations and values.
    pub fn log(name: &str, names: Option<&str>) -> Result<Source, Failure> {
        if names == Some("-") && name == "-" {
            return Err(words("standard input cannot be both the log and the names"));
        }
        let (called, bytes) = (files::called(name), files::read(name)?);
        if day::is_day(&bytes) {
            return Err(words(format!("{called}: this is a day in words and not a log; \"floor ask\" answers the questions of a day")));
        }
        let log = Log::read(&bytes).map_err(|r| Failure::Refused(refusal::refusal(called, None, r)))?;
        let names = match names {
            Some(file) => day::names(files::called(file), &files::read_text(file)?, log.stations.len()).map_err(Failure::Words)?,
            None => Names::default(),
        };
        Ok(Source { name: called.to_string(), log, names, lines: None })
    }

    /// A day where the file's name ends in .txt, which has names of its own; else a log.
    pub fn open(name: &str, names: Option<&str>) -> Result<Source, Failure> {
        match names {
            _ if !name.ends_with(".txt") => Source::log(name, names),
            None => Source::day(name),
            Some(names) => Err(words(format!("{name}: a day has its own names; leave {names:?} out"))),
        }
    }

    pub fn is_day(&self) -> bool {
        self.lines.is_some()
    }

    /// Where a line of the log stands for the reader: in the day, if there is one.
    pub fn line(&self, line: usize) -> usize {
        self.lines.as_ref().map_or(line, |lines| lines[line - 1])
    }

    pub fn place(&self, line: usize) -> String {
        format!("line {}", self.line(line))
    }
}
