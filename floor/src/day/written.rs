//! A log as a day in words.
use crate::log::{Event, Log, Message};
use crate::names::Names;

/// The day whose log it is. The names are those of `names` for this log.
pub fn written(log: &Log, names: &Names) -> String {
    let mut lines: Vec<String> = names.values.iter().map(|v| format!("value {} = {}", v.name, v.number)).collect();
    for (station, events) in log.stations.iter().enumerate() {
        let first = &events[0];
        lines.push(format!("station {} initially {}{}", names.station(station), names.report(station, first.value), panel(log, first)));
    }
    lines.extend(events(log).into_iter().map(|(station, number)| event(log, names, station, number)));
    lines.extend(log.messages.iter().map(|m| message(m, names)));
    lines.extend(log.questions.iter().map(|q| format!("question {}", q.formula.words(names))));
    lines.join("\n") + "\n"
}

/// Stations and numbers of all events in the order of the log.
fn events(log: &Log) -> Vec<(usize, usize)> {
    let all = (0..log.stations.len()).flat_map(|s| (1..log.stations[s].len()).map(move |number| (s, number)));
    let mut events: Vec<(usize, usize)> = all.collect();
    events.sort_by_key(|&(s, number)| log.stations[s][number].line);
    events
}

fn event(log: &Log, names: &Names, station: usize, number: usize) -> String {
    let event = &log.stations[station][number];
    let after = log.directly_seen(station, number).into_iter().map(|(other, k)| format!(" after {} {k}", names.station(other)));
    format!("event {} {}{}{}", names.station(station), names.report(station, event.value), panel(log, event), after.collect::<String>())
}

fn panel(log: &Log, event: &Event) -> String {
    if log.panels { format!(" panel {}", event.panel) } else { String::new() }
}

fn message(message: &Message, names: &Names) -> String {
    let received = if message.received == 0 { "never".to_string() } else { message.received.to_string() };
    format!("message {} {} to {} {received}", names.station(message.sender), message.sent, names.station(message.receiver))
}
