//! Logs of one JSON object a line: `{"host":"desk","clock":{"desk":1,"table":2},"event":"width 60"}`. Other fields are not used, which is
//! told. Empty lines are passed over.
use super::faults::Faults;
use super::source::lines;
use super::trace::{json, Trace};
use crate::json::Json;
use std::collections::HashSet;

pub fn read(text: &str, faults: &mut Faults) -> Trace {
    let mut trace = Trace::default();
    let mut unused = HashSet::new();
    for (number, line) in lines(text).filter(|(_, line)| !line.trim().is_empty()) {
        if let Err(why) = taken(&mut trace, &mut unused, number, line) {
            faults.at(number, || why);
        }
    }
    trace
}

fn taken(trace: &mut Trace, unused: &mut HashSet<String>, number: usize, line: &str) -> Result<(), String> {
    let object = json(line).map_err(|why| format!("a JSON object is due: {why}"))?;
    let Json::Object(fields) = &object else {
        return Err("a JSON object with host, clock and event is due".to_string());
    };
    let host = text(&object, "host")?;
    let clock = object.get("clock").ok_or("the field clock is missing")?;
    trace.add(number, host, clock, text(&object, "event")?)?;
    for (name, _) in fields.iter().filter(|(name, _)| !["host", "clock", "event"].contains(&name.as_str())) {
        if unused.insert(name.clone()) {
            trace.unused.push(name.clone());
        }
    }
    Ok(())
}

fn text<'j>(object: &'j Json, field: &str) -> Result<&'j str, String> {
    match object.get(field) {
        Some(Json::Text(text)) => Ok(text),
        Some(_) => Err(format!("the field {field} is no text")),
        None => Err(format!("the field {field} is missing")),
    }
}
