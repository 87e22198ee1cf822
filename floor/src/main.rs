//! The moment finder for the floor: questions in words, answers in words, the moment as a picture. It works out no answer itself: what it
//! shows is what the proved code says, in words beside the proved line.
mod args;
mod ask;
mod chain;
mod day;
mod explain;
mod failure;
mod files;
mod formula;
mod import;
mod json;
mod log;
mod names;
mod picture;
mod refusal;
mod source;
mod why;

use failure::{words, Failure};
use std::io::Write;
use std::process::ExitCode;

const HELP: &str = include_str!("help.txt");

fn run(args: &[String]) -> Result<(), Failure> {
    if let Some(missing) = moment::MISSING {
        return Err(Failure::Files(missing.to_string()));
    }
    let Some((command, rest)) = args.split_first() else {
        return Err(words(HELP));
    };
    match command.as_str() {
        "compile" => day::compile_command(rest),
        "ask" => explain::ask_command(rest),
        "explain" => explain::explain_command(rest),
        "picture" => picture::command(rest),
        "import" => import::command(rest),
        "help" | "--help" | "-h" => files::print(HELP),
        other => Err(words(format!("floor: no command {other:?}; `floor --help` lists them"))),
    }
}

fn main() -> ExitCode {
    let args: Vec<String> = std::env::args_os().skip(1).map(|a| a.to_string_lossy().into_owned()).collect();
    match run(&args) {
        Ok(()) => ExitCode::SUCCESS,
        Err(failure) => {
            // Where standard error cannot be written either, the exit code is all that is left to say.
            let _ = write!(std::io::stderr(), "{failure}");
            ExitCode::from(failure.code())
        }
    }
}
