//! Answers in words, or as JSON; or the log itself in words.
mod json;
mod words;

pub use words::{silences, value};

use crate::args::{Args, Usage};
use crate::ask::{self, Asked};
use crate::day;
use crate::failure::{self, Failure};
use crate::files;
use crate::log::Question;
use crate::refusal;
use crate::source::Source;
use crate::why;

/// A question, what the proved code says of it, and where it lists nothing why that is so, or why that cannot be shown.
pub struct Told {
    pub question: Question,
    pub asked: Asked,
    pub why: Option<Result<crate::chain::Why, String>>,
}

/// Every question of a log, asked and explained.
pub fn all(source: &Source) -> Result<Vec<Told>, Failure> {
    let asked = ask::all(&source.log).map_err(|r| Failure::Refused(refusal::refusal(&source.name, None, r)))?;
    let told = |(question, asked): (&Question, Asked)| {
        let never = asked.answer.moments.is_empty();
        let why = never.then(|| why::never(&source.log, &question.formula));
        Told { question: question.clone(), asked, why }
    };
    Ok(source.log.questions.iter().zip(asked).map(told).collect())
}

fn show(source: &Source, args: &Args) -> Result<(), Failure> {
    let told = all(source)?;
    files::print(&if args.flag("--json") { format!("{}\n", json::told(source, &told)) } else { words::told(source, &told) })
}

pub fn ask_command(args: &[String]) -> Result<(), Failure> {
    let usage = Usage { line: "floor ask [--json] DAY.txt", flags: &["--json"], options: &[] };
    let args = Args::parse(args, &usage, 1, 1)?;
    show(&Source::day(&args.files[0])?, &args)
}

pub fn explain_command(args: &[String]) -> Result<(), Failure> {
    let usage = Usage { line: "floor explain [--json | --words] LOG [NAMES]", flags: &["--json", "--words"], options: &[] };
    let args = Args::parse(args, &usage, 1, 2)?;
    if args.flag("--json") && args.flag("--words") {
        return Err(failure::words("floor: --json or --words, not both"));
    }
    let source = Source::log(&args.files[0], args.files.get(1).map(String::as_str))?;
    if args.flag("--words") { files::print(&day::written(&source.log, &source.names)) } else { show(&source, &args) }
}
