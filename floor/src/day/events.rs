//! Stations and events: what they report, and their clocks.
use super::errors::quote;
use super::reader::{digits, short, Reader};
use super::scope::Scope;
use moment::STATIONS;

/// A value, and a panel where one is given.
#[derive(Clone, Default)]
pub struct Report {
    pub value: u16,
    pub panel: Option<u16>,
}

pub struct Event {
    pub station: usize,
    pub report: Report,
    /// For each station how many of its events lie before this one or are it.
    pub clock: [usize; STATIONS],
    pub line: usize,
    /// Nothing was wrong with it or with what it has seen.
    pub sound: bool,
}

/// The events so far.
#[derive(Default)]
pub struct Events {
    pub list: Vec<Event>,
    /// For each station the places of its events in the list.
    of: [Vec<usize>; STATIONS],
    /// A line was not understood that may have been an event: numbers of events are not sure.
    pub gap: bool,
}

/// `initially VALUE [panel P]`, behind the name.
pub fn station<'a>(scope: &Scope<'a>, reader: &mut Reader<'a, '_>) -> Option<Report> {
    reader.take()?;
    reader.word("initially")?;
    let value = scope.report(reader)?;
    let panel = panel(reader)?;
    reader.end(&["panel"])?;
    Some(Report { value, panel })
}

fn panel(reader: &mut Reader) -> Option<Option<u16>> {
    if reader.skip("panel") { reader.number("a panel's number", usize::from(u16::MAX)).map(|p| Some(p as u16)) } else { Some(None) }
}

impl Events {
    pub fn count(&self, station: usize) -> usize {
        self.of[station].len()
    }

    /// An event of a station, by its number from 1.
    pub fn get(&self, station: usize, number: usize) -> Option<&Event> {
        self.of[station].get(number.checked_sub(1)?).map(|&place| &self.list[place])
    }

    /// The event of a line, which counts even where something is wrong with it.
    pub fn read<'a>(&mut self, scope: &Scope<'a>, reader: &mut Reader<'a, '_>) {
        let Some(station) = scope.station(reader) else {
            self.gap = true;
            return;
        };
        let mut event = Event { station, report: Report::default(), clock: [0; STATIONS], line: reader.line.number, sound: true };
        if let Some(last) = self.get(station, self.count(station)) {
            (event.clock, event.sound) = (last.clock, last.sound);
        }
        event.clock[station] += 1;
        let whole = self.rest(scope, reader, &mut event).is_some();
        event.sound &= whole && reader.sound;
        self.of[station].push(self.list.len());
        self.list.push(event);
    }

    /// `VALUE [panel P] [after NAME [K]]...`
    fn rest<'a>(&self, scope: &Scope<'a>, reader: &mut Reader<'a, '_>, event: &mut Event) -> Option<()> {
        let value = scope.report(reader);
        if value.is_none() && !matches!(reader.peek(), Some("panel" | "after")) {
            return None;
        }
        event.report = Report { value: value.unwrap_or(0), panel: panel(reader)? };
        let mut allowed: &[&str] = &["panel", "after"];
        while reader.skip("after") {
            self.after(scope, reader, event)?;
            allowed = &["after"];
        }
        match reader.peek() {
            Some("panel") => reader.fault("\"panel\" stands once, behind the value; write: event NAME VALUE panel P after NAME K"),
            Some(word) if scope.station_places.contains_key(word) => {
                reader.fault(format!("\"after\" is missing before {}; each event seen has its own \"after\"", quote(word)));
            }
            _ => return reader.end(allowed),
        }
        None
    }

    /// `NAME [K]`, behind after: the event has seen what that event has.
    fn after<'a>(&self, scope: &Scope<'a>, reader: &mut Reader<'a, '_>, event: &mut Event) -> Option<()> {
        let other = scope.station(reader)?;
        let name = scope.stations[other].0;
        let number = reader.peek().and_then(digits);
        let written = number.map_or(String::new(), |_| format!(" {}", short(reader.take().unwrap_or(""))));
        let count = self.count(other);
        if other == event.station {
            reader.fault(format!("an event always comes after its own station's last; leave \"after {name}{written}\" out"));
        } else if let Some(seen) = self.get(other, number.unwrap_or(count)) {
            (0..STATIONS).for_each(|j| event.clock[j] = event.clock[j].max(seen.clock[j]));
            event.sound &= seen.sound;
        } else if number == Some(0) {
            reader.fault(format!("events count from 1; leave \"after {name} 0\" out if no event of {name} was seen"));
        } else if !self.gap {
            reader.fault(unseen(name, &written, count));
        }
        Some(())
    }
}

/// An event that does not stand above.
fn unseen(name: &str, number: &str, count: usize) -> String {
    let above = match count {
        0 => format!("no event of {name} stands above this line"),
        1 => format!("only event 1 of {name} stands above this line"),
        _ => format!("only events 1 to {count} of {name} stand above this line"),
    };
    format!("\"after {name}{number}\": {above}; an event that was seen has to stand above the one that has seen it")
}
