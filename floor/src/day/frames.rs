//! A day as a log: its frames, a line each.
use super::events::Report;
use super::record::Record;
use moment::STATIONS;
use std::fmt::Write;

/// The log, and for each of its lines the line of the day. The day is without errors.
pub fn log(record: &Record, stations: usize, first: usize) -> (Vec<u8>, Vec<usize>) {
    let mut reports = record.stations[..stations].iter().chain(record.events.list.iter().map(|e| &e.report));
    let panels = reports.any(|r| r.panel.is_some());
    let mut frames = vec![(header(record, stations, panels), first)];
    frames.extend(events(record, stations, panels));
    frames.extend(record.messages.iter().map(|m| {
        let frame = vec![0x25, m.sender as u8, m.sent as u8, m.receiver as u8, m.received as u8];
        (frame, m.line)
    }));
    frames.extend(record.questions.iter().map(|(formula, line)| ([vec![0x30], formula.bytes()].concat(), *line)));
    let log = frames.iter().flat_map(|(frame, _)| line(frame).into_bytes()).collect();
    (log, frames.iter().map(|(_, line)| *line).collect())
}

fn header(record: &Record, stations: usize, panels: bool) -> Vec<u8> {
    let mut frame = vec![if panels { 0x11 } else { 0x10 }, stations as u8];
    record.stations[..stations].iter().for_each(|r| frame.extend(report(r.value, r.panel.unwrap_or(0), panels)));
    frame
}

/// An event without a panel keeps its station's.
fn events(record: &Record, stations: usize, panels: bool) -> Vec<(Vec<u8>, usize)> {
    let mut held: [u16; STATIONS] = std::array::from_fn(|s| record.stations[s].panel.unwrap_or(0));
    let mut frames = vec![];
    for event in &record.events.list {
        let Report { value, panel } = event.report;
        held[event.station] = panel.unwrap_or(held[event.station]);
        let mut frame = vec![0x20, event.station as u8];
        frame.extend(report(value, held[event.station], panels));
        frame.extend(event.clock[..stations].iter().map(|count| *count as u8));
        frames.push((frame, event.line));
    }
    frames
}

fn report(value: u16, panel: u16, panels: bool) -> Vec<u8> {
    let words: &[u16] = if panels { &[value, panel] } else { &[value] };
    words.iter().flat_map(|w| w.to_be_bytes()).collect()
}

/// A frame's line: its digits with the check byte, by which all bytes add up to zero.
fn line(frame: &[u8]) -> String {
    let check = frame.iter().fold(0u8, |sum, b| sum.wrapping_sub(*b));
    let mut line = String::new();
    for byte in frame.iter().chain([&check]) {
        let _ = write!(line, "{byte:02X}");
    }
    line + "\n"
}
