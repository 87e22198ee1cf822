//! Logs of other tools: a file of events, each with its host, its clock and a text, is written as a day in words.
mod chosen;
mod clocks;
mod day;
mod faults;
mod hosts;
mod jsonl;
mod notes;
mod options;
mod order;
mod pattern;
mod shiviz;
mod source;
mod trace;
mod values;
mod window;

use crate::failure::{words, Failure};
use chosen::Chosen;
use faults::Faults;
use hosts::Hosts;
use options::{Format, Options};
use std::io::Write;

const HELP: &str = include_str!("help.txt");

/// All that is known of a file once it has been read and checked.
struct Import<'i> {
    file: &'i str,
    options: &'i Options,
    trace: &'i trace::Trace,
    table: &'i clocks::Table,
    hosts: &'i Hosts,
    chosen: &'i Chosen<'i>,
    reports: &'i values::Reports,
    part: &'i window::Part,
    window: window::Window,
}

pub fn command(args: &[String]) -> Result<(), Failure> {
    if args.iter().any(|arg| arg == "--help" || arg == "-h") {
        return crate::files::print(HELP);
    }
    let options = options::read(args)?;
    let (day, notes) = imported(&options)?;
    put(options.out.as_deref(), &day)?;
    // The notes stand in the day too, so it is no loss where nobody can read them here.
    let _ = std::io::stderr().write_all((notes.join("\n") + "\n").as_bytes());
    Ok(())
}

/// The day, and what is told of it.
fn imported(options: &Options) -> Result<(String, Vec<String>), Failure> {
    let file = options.file.as_str();
    let text = source::read(file)?;
    let mut faults = Faults::new(file);
    let trace = match options.format {
        Format::Shiviz => shiviz::read(&text, &mut faults),
        Format::Jsonl => jsonl::read(&text, &mut faults),
    };
    faults.told()?;
    if trace.events.is_empty() {
        return Err(words(format!("{file}: no event")));
    }
    let hosts = Hosts::of(&trace);
    let chosen = Chosen::of(options, &trace, &hosts)?;
    let table = clocks::table(&trace, &mut faults);
    let reports = values::reports(&trace, &chosen.rules, &chosen.stations, &mut faults);
    faults.told()?;
    let kept = |event: usize| Some((event, chosen.stations[trace.events[event].host]?));
    let order: Vec<(usize, usize)> = order::possible(&trace, &table).into_iter().filter_map(kept).collect();
    let window = window::checked(file, &hosts, &chosen, order.len(), options.window)?;
    let part = window::Part::of(&trace, &chosen, &reports, &order, window);
    let (trace, table, hosts, chosen, reports, part) = (&trace, &table, &hosts, &chosen, &reports, &part);
    let import = Import { file, options, trace, table, hosts, chosen, reports, part, window };
    let notes = notes::all(&import);
    Ok((day::written(&import, &notes)?, notes))
}

/// To standard output, or to a new file: one that is there may have questions by now.
fn put(out: Option<&str>, day: &str) -> Result<(), Failure> {
    match out {
        None | Some("-") => crate::files::print(day),
        Some(name) if std::fs::metadata(name).is_ok_and(|there| there.is_file()) => {
            Err(Failure::Files(format!("{name}: there already, and questions may have been added to it: give another name or remove it")))
        }
        Some(name) => crate::files::write(name, day),
    }
}
