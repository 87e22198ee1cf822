//! At which stations the names of values are used.
use super::lines::Line;
use super::scope::Scope;
use crate::names::{Names, Value};

impl Scope<'_> {
    /// The names that the file gives, each value's with the stations at which the file uses it.
    pub fn names(&self, lines: &[Line]) -> Names {
        let uses: Vec<(&str, &str)> = lines.iter().flat_map(|line| uses(&line.words)).collect();
        let used_at = |name: &str| {
            let stations = uses.iter().filter(|(_, value)| *value == name).filter_map(|(station, _)| self.station_places.get(station));
            let mut at: Vec<usize> = stations.map(|(place, _)| *place).collect();
            at.sort();
            at.dedup();
            at
        };
        let values = self.values.iter().map(|(name, number)| Value { name: name.to_string(), number: *number, stations: used_at(name) });
        Names { stations: self.stations.iter().map(|(name, _)| name.to_string()).collect(), values: values.collect() }
    }
}

/// The words of a line that can be a station's name and a value of it.
fn uses<'a>(words: &[&'a str]) -> Vec<(&'a str, &'a str)> {
    let event = match words {
        ["event", station, value, ..] => Some((*station, *value)),
        _ => None,
    };
    let first = words.windows(3).filter_map(|w| match w {
        [station, "initially" | "is" | "in", value] => Some((*station, *value)),
        _ => None,
    });
    let last = words.windows(5).filter_map(|w| match w {
        [station, "in", _, "..", value] => Some((*station, *value)),
        _ => None,
    });
    event.into_iter().chain(first).chain(last).collect()
}
