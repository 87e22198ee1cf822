//! Logs for ShiViz, as GoVector writes them: two lines an event, `HOST {"HOST":1,"OTHER":2}` and then its text. ShiViz finds them by the
//! expression below, and what is taken here is what that takes: a host without blanks, one blank, the clock as a JSON object up to the end
//! of the line; the next line is the text, whatever stands there, even nothing. So a text behind the clock, on the same line, is not of
//! this form. ShiViz passes over what its expression does not fit. Here that is an error, but for empty lines between events and for the
//! expression itself on the first line, which GoVector writes into merged files. It is also an error where the line of the text is itself
//! a host with its clock, which ShiViz would take for a text.
use super::faults::Faults;
use super::source::{lines, quoted};
use super::trace::{json, Trace};
use crate::json::Json;

const PARSER: &str = r"(?<host>\S*) (?<clock>{.*})\n(?<event>.*)";

pub fn read(text: &str, faults: &mut Faults) -> Trace {
    let mut trace = Trace::default();
    let mut rest = lines(text).peekable();
    rest.next_if(|(_, line)| line.trim_end() == PARSER);
    while let Some((number, line)) = rest.next() {
        if line.trim().is_empty() {
            continue;
        }
        let text = rest.next_if(|(_, next)| !is_head(next));
        let added = headed(line).and_then(|(host, clock)| match text {
            Some((_, text)) => trace.add(number, host, &clock, text),
            None => Err("the text of this event is due on the next line".to_string()),
        });
        if let Err(why) = added {
            faults.at(number, || why);
        }
    }
    trace
}

/// The host and the clock of an event's first line.
fn headed(line: &str) -> Result<(&str, Json), String> {
    let due = || format!("HOST {{\"HOST\":1,\"OTHER\":2}} is due, with one blank between, and there is {}", quoted(line));
    if line.starts_with("(?<") {
        return Err(format!("of the expressions for ShiViz only {PARSER} is known, on the first line"));
    }
    let at = line.find(" {").ok_or_else(due)?;
    let (host, clock) = (&line[..at], &line[at + 1..]);
    if host.is_empty() || host.contains(char::is_whitespace) {
        return Err(due());
    }
    match json(clock) {
        Ok(clock) => Ok((host, clock)),
        Err(why) => Err(format!("the clock {} is no JSON: {why}; the event's text is due on the next line", quoted(clock))),
    }
}

/// Whether a line is a host and its clock, and so no text.
fn is_head(line: &str) -> bool {
    headed(line).is_ok_and(|(host, clock)| matches!(clock.get(host), Some(Json::Number(_))))
}
