//! A log as a page: the stations' lines with their events, what clocks tell, messages, each listed moment as a cut line with its table, and
//! why the others never were. One file that loads nothing.
mod figure;
mod labels;
mod layout;
mod legend;
mod moments;
mod page;
mod path;
mod questions;
mod routes;
mod rows;
mod slots;
mod svg;
mod text;

use crate::args::{Args, Usage};
use crate::ask::Asked;
use crate::chain::Why;
use crate::explain::{self, Told};
use crate::failure::{words, Failure};
use crate::files;
use crate::log::Event;
use crate::source::Source;
use crate::why::{self, Marks};

const USAGE: Usage = Usage { line: "floor picture LOG|DAY.txt [NAMES] -o PAGE", flags: &[], options: &["-o"] };

/// All that a page shows.
pub struct Shown {
    pub source: Source,
    /// What the proved code says of each question, and where it lists nothing, why.
    pub answers: Vec<(Asked, Option<Never>)>,
}

/// Why a question was never true: in words and as marks, or why no chain can be shown.
pub type Never = Result<(Vec<String>, Marks), String>;

pub fn command(args: &[String]) -> Result<(), Failure> {
    let args = Args::parse(args, &USAGE, 1, 2)?;
    let Some(out) = args.one("-o")? else {
        return Err(words(format!("floor: no page is named; -o PAGE names it\nusage: {}", USAGE.line)));
    };
    if args.files.iter().any(|read| files::same(read, out)) {
        return Err(words(format!("{out}: the page would take the place of what it is made of; give it another name")));
    }
    let source = Source::open(&args.files[0], args.files.get(1).map(String::as_str))?;
    files::write(out, &page::page(&Shown::new(source)?))
}

impl Shown {
    fn new(source: Source) -> Result<Shown, Failure> {
        let never = |why: Why| (why::told(&source.log, &source.names, &|line| source.place(line), &why), why::marks(&source.log, &why));
        let answered = |told: Told| (told.asked, told.why.map(|why| why.map(never)));
        let answers = explain::all(&source)?.into_iter().map(answered).collect();
        Ok(Shown { source, answers })
    }

    /// The file's name, without the folders that it is in.
    pub fn title(&self) -> String {
        let name = std::path::Path::new(&self.source.name).file_name();
        name.map_or(self.source.name.clone(), |name| name.to_string_lossy().into_owned())
    }

    /// The line of a station's last event so far. Before its first that is the header; a day has no one line for it.
    pub fn line_of_last(&self, number: usize, event: &Event) -> String {
        match (number, self.source.is_day()) {
            (0, true) => "start".to_string(),
            (0, false) => format!("{} (header)", event.line),
            _ => self.source.line(event.line).to_string(),
        }
    }

    /// A value as a station reported it, and its name where it has one.
    pub fn value(&self, station: usize, value: u16) -> String {
        explain::value(&self.source, station, value)
    }

    /// How a chain of a question that was never true goes through the events, if one is shown.
    pub fn marks(&self, question: usize) -> Option<&Marks> {
        self.answers[question].1.as_ref()?.as_ref().ok().map(|(_, marks)| marks)
    }
}
