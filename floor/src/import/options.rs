//! What the command is given.
use super::source::{plain, quoted, value};
use super::values::Rule;
use super::window::Window;
use crate::args::{Args, Usage};
use crate::failure::{words, Failure};

pub enum Format {
    Shiviz,
    Jsonl,
}

pub struct Options {
    pub format: Format,
    pub file: String,
    pub rules: Vec<Rule>,
    /// Hosts, or * for all, and what they report before their first event.
    pub initially: Vec<(String, u16)>,
    /// The hosts that are kept; all where none is named.
    pub hosts: Vec<String>,
    pub window: Option<Window>,
    pub out: Option<String>,
}

const USAGE: Usage = Usage {
    line: "floor import shiviz|jsonl FILE [OPTIONS]; `floor import --help` has the options",
    flags: &[],
    options: &["--value", "--initially", "--hosts", "--window", "-o"],
};

/// The options, or all that is wrong with them.
pub fn read(args: &[String]) -> Result<Options, Failure> {
    let args = Args::parse(args, &USAGE, 2, 2)?;
    let format = match args.files[0].as_str() {
        "jsonl" => Format::Jsonl,
        "shiviz" => Format::Shiviz,
        other => return Err(words(format!("floor: no format {}\nusage: {}", quoted(other), USAGE.line))),
    };
    let mut errors = vec![];
    let mut noted = |error: String| errors.push(error);
    let rules = args.all("--value").iter().filter_map(|given| Rule::read(given).map_err(&mut noted).ok()).collect();
    let initially = args.all("--initially").iter().filter_map(|given| initial(given).map_err(&mut noted).ok()).collect();
    let window = args.one("--window")?.and_then(|given| window(given).map_err(&mut noted).ok());
    let hosts = args.one("--hosts")?.iter().flat_map(|hosts| hosts.split(',')).map(str::to_string).collect();
    let (file, out) = (args.files[1].clone(), args.one("-o")?.map(str::to_string));
    if errors.is_empty() { Ok(Options { format, file, rules, initially, hosts, window, out }) } else { Err(Failure::Words(errors)) }
}

/// `NAME=VALUE`, split at its last =.
fn initial(given: &str) -> Result<(String, u16), String> {
    let read = given.rsplit_once('=').and_then(|(host, reports)| Some((host.to_string(), value(reports)?)));
    read.filter(|(host, _)| !host.is_empty())
        .ok_or_else(|| format!("--initially {}: NAME=VALUE is due, the value a number from 0 to 65534 or silent", plain(given)))
}

/// `FROM..TO`.
fn window(given: &str) -> Result<Window, String> {
    let number = |digits: &str| digits.bytes().all(|b| b.is_ascii_digit()).then(|| digits.parse().ok()).flatten();
    let read = given.split_once("..").and_then(|(from, to)| Some((number(from)?, number(to)?)));
    read.filter(|(from, to)| 1 <= *from && from <= to)
        .ok_or_else(|| format!("--window {}: FROM..TO is due, two numbers of events from 1, the second no smaller", plain(given)))
}
