//! The clocks of an imported file: whether they are those of a log.
//!
//! A log's clocks go by three rules (docs/FORMAT.md, Clocks), line after line. Here the order of the lines is free, so what is asked is
//! whether there is an order that keeps the rules. There is one just if
//!
//! 1. the own entries of each host are 1, 2, ... to the number of its events,
//! 2. each entry counts events that are in the file,
//! 3. each event knows at least what the last event of each host that it has seen knew, for its own host the event before it,
//! 4. no event that it has seen has seen it.
//!
//! By 3 and 4 an event's clock is above that of each event that it has seen, so no row of events leads back to its first.
use super::faults::Faults;
use super::hosts::shown;
use super::trace::{Event, Trace};

/// For each host its events in order, as places in the trace.
pub struct Table(Vec<Vec<usize>>);

impl Table {
    /// The event of a number from 1.
    pub fn event(&self, host: usize, number: u32) -> Option<usize> {
        self.0[host].get((number as usize).checked_sub(1)?).copied()
    }

    pub fn count(&self, host: usize) -> usize {
        self.0[host].len()
    }

    /// The last events that an event has seen: of its own host the one before it.
    pub fn seen<'a>(&'a self, event: &'a Event) -> impl Iterator<Item = usize> + 'a {
        event.clock.entries().filter_map(|(host, count)| self.event(host, count - u32::from(host == event.host)))
    }
}

/// The events by hosts. Where no fault is found the clocks are those of a log.
pub fn table(trace: &Trace, faults: &mut Faults) -> Table {
    let mut of: Vec<Vec<usize>> = trace.hosts.iter().map(|_| vec![]).collect();
    for (i, event) in trace.events.iter().enumerate() {
        of[event.host].push(i);
    }
    of.iter_mut().for_each(|events| events.sort_by_key(|&i| trace.events[i].number()));
    let sound: Vec<bool> = of.iter().map(|events| numbered(trace, events, faults)).collect();
    let table = Table(of);
    for event in &trace.events {
        if let Some(what) = unknown(trace, &table, &sound, event) {
            faults.at(event.line, || what);
        }
    }
    if faults.none() {
        agreeing(trace, &table, faults);
    }
    table
}

/// Rule 1 for the events of one host, whose own entries go up.
fn numbered(trace: &Trace, events: &[usize], faults: &mut Faults) -> bool {
    let (mut last, mut sound) = (None::<&Event>, true);
    for event in events.iter().map(|&i| &trace.events[i]) {
        let host = || shown(&trace.hosts[event.host]);
        let (number, before) = (event.number(), last.map_or(0, Event::number));
        if let Some(twin) = last.filter(|_| number == before) {
            faults.at(event.line, || format!("event {number} of {} is on line {} already", host(), twin.line));
        } else if number > before + 1 {
            let (from, to) = (before + 1, number - 1);
            let missing = if from == to { format!("event {to} is") } else { format!("events {from} to {to} are") };
            faults.at(event.line, || format!("event {number} of {}, but {missing} missing in the file", host()));
        }
        sound &= number == before + 1;
        last = Some(event);
    }
    sound
}

/// Rule 2: what an event has seen and the file does not have. Hosts whose events are told of by rule 1 are passed over.
fn unknown(trace: &Trace, table: &Table, sound: &[bool], event: &Event) -> Option<String> {
    let (host, count) = event.clock.entries().find(|&(host, count)| sound[host] && table.event(host, count).is_none())?;
    let other = shown(&trace.hosts[host]);
    let has = match table.count(host) {
        0 => format!("no event of {other}"),
        has => has.to_string(),
    };
    Some(format!("{} has seen event {count} of {other}, and the file has {has}", shown(&trace.hosts[event.host])))
}

/// Rules 3 and 4. What an event has seen with the one before it need not be looked at again.
fn agreeing(trace: &Trace, table: &Table, faults: &mut Faults) {
    let mut known = vec![0; trace.hosts.len()];
    for event in &trace.events {
        event.clock.entries().for_each(|(host, count)| known[host] = count);
        let before = table.event(event.host, event.number() - 1).map(|i| &trace.events[i]);
        let new = |seen: &&Event| seen.host == event.host || before.map_or(true, |before| before.clock.of(seen.host) < seen.number());
        let mut news = table.seen(event).map(|i| &trace.events[i]).filter(new);
        if let Some(what) = news.find_map(|seen| contradicted(trace, event, seen, &known)) {
            faults.at(event.line, || what);
        }
        event.clock.entries().for_each(|(host, _)| known[host] = 0);
    }
}

/// How an event contradicts one that it has seen, by what it knows of each host.
fn contradicted(trace: &Trace, event: &Event, seen: &Event, known: &[u32]) -> Option<String> {
    let of = |number: u32, host: usize| format!("event {number} of {}", shown(&trace.hosts[host]));
    let how = if seen.host == event.host { "comes after" } else { "has seen" };
    let pair = || format!("{} {how} {} (line {})", of(event.number(), event.host), of(seen.number(), seen.host), seen.line);
    let back = seen.clock.of(event.host);
    if back >= event.number() {
        return Some(format!("{}, and that has seen {}: neither can have been first", pair(), of(back, event.host)));
    }
    let (host, count) = seen.clock.entries().find(|&(host, count)| known[host] < count)?;
    let known = format!("{} for {}", known[host], shown(&trace.hosts[host]));
    Some(format!("{}, which had seen {}; but its own clock has {known}", pair(), of(count, host)))
}
