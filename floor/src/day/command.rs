//! `floor compile`.
use super::compile;
use crate::args::{Args, Usage};
use crate::failure::{words, Failure};
use crate::files;
use crate::refusal::refusal;

const USAGE: Usage = Usage { line: "floor compile DAY.txt [-o LOG]", flags: &[], options: &["-o"] };

pub fn compile_command(args: &[String]) -> Result<(), Failure> {
    let args = Args::parse(args, &USAGE, 1, 1)?;
    let (file, out) = (&args.files[0], args.one("-o")?.unwrap_or("-"));
    let (shown, text) = (files::called(file), files::read_text(file)?);
    let day = compile(shown, &text).map_err(Failure::Words)?;
    moment::read(&day.log).map_err(|r| Failure::Refused(refusal(shown, Some(&day.lines), r)))?;
    if files::same(file, out) {
        return Err(words(format!("{out}: the log would take the day's place; give it another name")));
    }
    files::write(out, &String::from_utf8_lossy(&day.log))
}
