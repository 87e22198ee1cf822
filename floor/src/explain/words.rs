//! Answers in words.
use super::Told;
use crate::formula::{Aspect, Formula};
use crate::log::Message;
use crate::names::SILENT;
use crate::source::Source;
use crate::why;

/// A number and what it counts.
pub fn count(n: usize, one: &str) -> String {
    format!("{n} {one}{}", if n == 1 { "" } else { "s" })
}

/// A value that a station reports, its number beside its name.
pub fn value(source: &Source, station: usize, value: u16) -> String {
    let name = source.names.report(station, value);
    if value == SILENT || name == value.to_string() { name } else { format!("{value} ({name})") }
}

/// What every station was doing at a moment, as rows of a table: its name, its events so far, where the last one stands, value, panel.
pub fn rows(source: &Source, moment: &[u8]) -> Vec<Vec<String>> {
    let log = &source.log;
    let row = |station: usize| {
        let (last, all) = (log.last(station, moment), log.stations[station].len() - 1);
        let so_far = format!("{} of {}", moment[station], count(all, "event"));
        let place = match (moment[station], all) {
            (_, 0) => "it has none".to_string(),
            (0, _) => "before the first".to_string(),
            _ => format!("the last on {}", source.place(last.line)),
        };
        let panel = log.panels.then(|| format!("panel {}", last.panel));
        [source.names.station(station), so_far, place, value(source, station, last.value)].into_iter().chain(panel).collect()
    };
    (0..log.stations.len()).map(row).collect()
}

/// A message that is on the way.
pub fn message(source: &Source, m: &Message) -> String {
    let [sender, receiver] = [m.sender, m.receiver].map(|s| source.names.station(s));
    let end = if m.received == 0 { "never came".to_string() } else { format!("comes with {receiver}'s event {}", m.received) };
    format!("from {sender} to {receiver} ({}): sent with {sender}'s event {}, {end}", source.place(m.line), m.sent)
}

/// Rows with their columns below one another.
fn table(rows: &[Vec<String>], out: &mut Vec<String>) {
    let columns = rows.first().map_or(0, Vec::len);
    let widths: Vec<usize> = (0..columns).map(|c| rows.iter().map(|r| r[c].chars().count()).max().unwrap_or(0)).collect();
    for row in rows {
        let cells = row.iter().zip(&widths).map(|(cell, width)| format!("{cell}{}", " ".repeat(width - cell.chars().count())));
        out.push(format!("    {}", cells.collect::<Vec<String>>().join("   ").trim_end()));
    }
}

/// Every station at a moment, and the messages on the way.
fn moment(source: &Source, moment: &[u8], out: &mut Vec<String>) {
    table(&rows(source, moment), out);
    let on_the_way = source.log.on_the_way(moment);
    if on_the_way.is_empty() && !source.log.messages.is_empty() {
        out.push("    nothing is on the way".to_string());
    }
    out.extend(on_the_way.iter().map(|m| format!("    on the way {}", message(source, m))));
}

/// The stations whose values a formula looks at.
fn looked_at(formula: &Formula, out: &mut Vec<usize>) {
    match formula {
        Formula::Range { aspect: Aspect::Value, station, .. } => out.push(*station),
        Formula::Range { .. } | Formula::Clear { .. } => {}
        Formula::Not(p) | Formula::Possibly(p) | Formula::Always(p) => looked_at(p, out),
        Formula::And(p, q) | Formula::Or(p, q) => [p, q].into_iter().for_each(|p| looked_at(p, out)),
    }
}

/// The stations that the question looks at and that were silent, with the lines: a reader may take silence for yes or for no.
pub fn silences(source: &Source, formula: &Formula) -> Vec<String> {
    let mut stations = vec![];
    looked_at(formula, &mut stations);
    stations.sort();
    stations.dedup();
    let always = if formula.has_always() { ", and makes no \"always\" false" } else { "" };
    let silent = |station: usize| {
        let events = source.log.stations[station].iter().enumerate().filter(|(_, e)| e.value == SILENT);
        let before = if source.log.stations[station].len() == 1 { "it has no event" } else { "before its first event" };
        let places: Vec<String> = events.map(|(k, e)| if k == 0 { before.to_string() } else { source.place(e.line) }).collect();
        let name = source.names.station(station);
        let told = format!("{name} was silent ({}): that is neither inside a range nor outside it{always}", places.join(", "));
        (!places.is_empty()).then_some(told)
    };
    stations.into_iter().filter_map(silent).collect()
}

/// Why nothing is listed, or that this cannot be shown.
fn never(source: &Source, told: &Told, out: &mut Vec<String>) {
    out.push("  never, in any order that the messages allow".to_string());
    match &told.why {
        Some(Ok(why)) => {
            out.push("  why:".to_string());
            let lines = why::told(&source.log, &source.names, &|line| source.place(line), why);
            out.extend(lines.into_iter().map(|line| format!("    {line}")));
        }
        Some(Err(text)) => out.push(format!("  no chain can be shown: {text}")),
        None => {}
    }
}

/// One question: its words, its answer, what it cost, and the proved line.
fn one(source: &Source, number: usize, told: &Told) -> Vec<String> {
    let (formula, answer, forecast) = (&told.question.formula, &told.asked.answer, &told.asked.forecast);
    let (words, numbers) = (formula.words(&source.names), formula.words(&source.names.numbers()));
    let mut out = vec![format!("question {number} ({}): {words}", source.place(told.question.line))];
    if numbers != words {
        out.push(format!("  in numbers: {numbers}"));
    }
    out.push(format!("  at the start: {}", if answer.start { "yes" } else { "no" }));
    match &answer.moments[..] {
        [] => never(source, told, &mut out),
        [only] => {
            out.push("  the greatest moment at which it is true:".to_string());
            moment(source, only, &mut out);
        }
        moments => {
            out.push(format!("  {} greatest moments, every other one at which it is true is contained in one of these:", moments.len()));
            for (i, m) in (1..).zip(moments) {
                out.push(format!("   moment {i}:"));
                moment(source, m, &mut out);
            }
        }
    }
    out.extend(silences(source, formula).into_iter().map(|silence| format!("  {silence}")));
    let figures = [(forecast.width, "moment"), (forecast.ceiling, "round"), (forecast.cells, "byte")];
    let [moments, rounds, bytes] = figures.map(|(n, of)| count(n, of));
    let took = count(answer.rounds as usize, "round");
    out.push(format!("  forecast: at most {moments}, {rounds}, {bytes} of workspace; it took {took}"));
    out.push(format!("  proved: {}", answer.line));
    out
}

/// All questions, a blank line between them.
pub fn told(source: &Source, told: &[Told]) -> String {
    let log = &source.log;
    let events: usize = log.stations.iter().map(|s| s.len() - 1).sum();
    let counts = [(log.stations.len(), "station"), (events, "event"), (log.messages.len(), "message"), (told.len(), "question")];
    let mut out = vec![format!("{}: {}", source.name, counts.map(|(n, of)| count(n, of)).join(", "))];
    for (number, t) in (1..).zip(told) {
        out.push(String::new());
        out.extend(one(source, number, t));
    }
    out.join("\n") + "\n"
}
