//! The part of a file that a day has: the hosts that are kept, and a window of their events.
//!
//! A window is the events FROM to TO of a possible order. Those before it are its past: what they reported is what the stations report at
//! first, and clocks count from there on, so that an entry which counts none but past events is 0. The events up to any place of a possible
//! order make a moment, so the moments of the window are just those moments of the whole file that hold all of the past and nothing after
//! the window.
//!
//! Keeping some hosts keeps the clocks' entries of these. Every moment of the file is, on the kept hosts, a moment of the part. And every
//! moment of the part comes from one of the file: the join of the clocks of its last events, which has just these events of the kept hosts;
//! joined with an earlier moment of the file it is also one that follows that. So questions about kept hosts have the same answers, those
//! with possibly and always too.
use super::chosen::Chosen;
use super::hosts::Hosts;
use super::trace::Trace;
use super::values::Reports;
use crate::failure::{words, Failure};
use moment::{EVENTS, STATIONS};

/// The first event and the last, counted from 1.
pub type Window = (usize, usize);

pub struct Kept {
    /// Its place in the trace.
    pub event: usize,
    pub station: usize,
    pub value: u16,
    pub clock: Vec<u8>,
}

pub struct Part {
    /// What the stations report at first, and whether an event before the window did.
    pub initially: Vec<u16>,
    pub reported: Vec<bool>,
    pub events: Vec<Kept>,
    /// For each station how many of its events lie before the window, and after it.
    pub before: Vec<u32>,
    pub after: Vec<u32>,
}

impl Part {
    /// The window of the events that are kept, which stand in a possible order.
    pub fn of(trace: &Trace, chosen: &Chosen, reports: &Reports, order: &[(usize, usize)], (from, to): Window) -> Part {
        let (order, after) = order.split_at(to);
        let (before, order) = order.split_at(from - 1);
        let of = |events: &[(usize, usize)], station: usize| events.iter().filter(|(_, of)| *of == station).count() as u32;
        let count = |events: &[(usize, usize)]| (0..chosen.hosts.len()).map(|station| of(events, station)).collect();
        let mut values: Vec<u16> = chosen.initially.iter().map(|value| value.unwrap_or(0)).collect();
        let mut reported = vec![false; values.len()];
        for &(event, station) in before {
            values[station] = reports.values[event].unwrap_or(values[station]);
            reported[station] |= reports.values[event].is_some();
        }
        let mut part = Part { initially: values.clone(), reported, events: vec![], before: count(before), after: count(after) };
        for &(event, station) in order {
            values[station] = reports.values[event].unwrap_or(values[station]);
            let clock = part.clock(trace, chosen, event);
            part.events.push(Kept { event, station, value: values[station], clock });
        }
        part
    }

    /// The clock of an event as it counts in the window, which has at most as many events as a byte can say.
    fn clock(&self, trace: &Trace, chosen: &Chosen, event: usize) -> Vec<u8> {
        let clock = &trace.events[event].clock;
        let entries = chosen.hosts.iter().zip(&self.before).map(|(&host, before)| clock.of(host).saturating_sub(*before));
        entries.map(|entry| u8::try_from(entry).unwrap_or(u8::MAX)).collect()
    }
}

/// The window, where it and the hosts are within the limits. The bytes of a log need no test: 254 events of 8 stations take 6,897, of at
/// most 16,384.
pub fn checked(file: &str, hosts: &Hosts, chosen: &Chosen, events: usize, window: Option<Window>) -> Result<Window, Failure> {
    if chosen.hosts.len() > STATIONS {
        let some: Vec<&str> = chosen.hosts.iter().take(STATIONS).map(|&host| hosts.name(host)).collect();
        let (has, over) = (chosen.hosts.len(), chosen.hosts.len() - STATIONS);
        let fitting = format!("--hosts {}", some.join(","));
        return Err(words(format!("{file}: {has} hosts, {over} more than a log's {STATIONS} stations; choose some, such as {fitting}")));
    }
    let (from, to) = window.unwrap_or((1, events));
    if to > events {
        return Err(words(format!("{file}: --window {from}..{to} goes past the last event, {events}")));
    }
    let has = to + 1 - from;
    if has > EVENTS {
        let fitting = format!("--window {from}..{} or --window {}..{to}", from + EVENTS - 1, to + 1 - EVENTS);
        return Err(words(format!("{file}: {has} events, {} more than a log's {EVENTS}; choose some, such as {fitting}", has - EVENTS)));
    }
    Ok((from, to))
}
