//! A day in words: read, and written.
mod atom;
mod command;
mod errors;
mod events;
mod frames;
mod lines;
mod lookup;
mod messages;
mod name;
mod naming;
mod question;
mod reader;
mod record;
mod scope;
mod spelling;
mod uses;
mod written;

use crate::names::Names;
pub use command::compile_command;
use errors::Errors;
pub use lines::is_day;
use lines::Kind;
pub use naming::names;
use record::Record;
use scope::Scope;
pub use written::written;

/// A day that was understood: its names, its log, and for each line of the log the line of the day that it comes from.
pub struct Day {
    pub names: Names,
    pub log: Vec<u8>,
    pub lines: Vec<usize>,
}

/// A day's text, or its errors, each a line `FILE:LINE: ...`.
pub fn compile(file: &str, text: &str) -> Result<Day, Vec<String>> {
    let mut errors = Errors::new(file);
    let lines = lines::lines(text, &mut errors);
    record::limited(&lines, &Kind::ALL, &mut errors);
    let scope = Scope::declared(&lines, &mut errors);
    let record = Record::read(&lines, &scope, &mut errors);
    let first = scope.stations.first().map(|(_, line)| *line);
    if first.is_none() && lines.iter().all(|l| l.kind.is_some()) {
        let line = lines.first().map_or(1, |l| l.number);
        errors.add(line, "no station; a day begins with its stations, such as \"station desk initially 50\"");
    }
    errors.told()?;
    let names = scope.names(&lines);
    let (log, lines) = frames::log(&record, scope.stations.len(), first.unwrap_or(1));
    Ok(Day { names, log, lines })
}
