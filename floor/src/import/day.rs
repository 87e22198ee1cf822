//! An imported part as a day in words.
use super::source::plain;
use super::window::Part;
use super::Import;
use crate::failure::Failure;
use crate::log::Log;
use crate::names::Names;

/// The day, with what is told of it at the top, and behind each event its line and text in the file.
pub fn written(import: &Import, notes: &[String]) -> Result<String, Failure> {
    let Import { file, trace, part, .. } = import;
    let log = log(part)?;
    let names = Names { stations: import.chosen.hosts.iter().map(|&host| import.hosts.name(host).to_string()).collect(), values: vec![] };
    let mut day: Vec<String> = notes.iter().map(|note| format!("# {note}")).collect();
    for (station, value) in part.initially.iter().enumerate() {
        day.push(format!("station {} initially {}", names.station(station), names.report(station, *value)));
    }
    for kept in &part.events {
        let number = kept.clock[kept.station];
        let after = log.directly_seen(kept.station, number as usize);
        let after: String = after.iter().map(|(station, k)| format!(" after {} {k}", names.station(*station))).collect();
        let event = &trace.events[kept.event];
        let told = format!("{}:{}: {}", plain(file), event.line, plain(&event.text));
        let (name, value) = (names.station(kept.station), names.report(kept.station, kept.value));
        day.push(format!("event {name} {value}{after}   # {}", told.trim_end()));
    }
    day.push(format!("# Add questions below, such as: question {} in 0..65534", names.station(0)));
    day.push("# There are no message lines: until you add some, \"nothing from A to B\" is true at every moment.".to_string());
    Ok(day.join("\n") + "\n")
}

/// The part as a log, which the proved code has accepted.
fn log(part: &Part) -> Result<Log, Failure> {
    let fault = |refusal: moment::Refusal| Failure::Refused(format!("a fault of floor import: the log that it made is refused: {refusal}"));
    let values = part.initially.iter().flat_map(|value| value.to_be_bytes());
    let mut frames = vec![[0x10, part.initially.len() as u8].into_iter().chain(values).collect::<Vec<u8>>()];
    for kept in &part.events {
        frames.push([&[0x20, kept.station as u8], &kept.value.to_be_bytes()[..], &kept.clock].concat());
    }
    Log::read(&moment::write(&moment::list(&frames)).map_err(fault)?).map_err(fault)
}
