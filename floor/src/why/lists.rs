//! What a station reports in a row of its events, in words.
use super::words::Teller;
use crate::formula::Aspect;

/// Events of a station in a row, by their numbers; 0 is what it reports before its first.
type Run = (u8, u8);

/// From so many runs on, equal reports are told together.
const MANY: usize = 7;

impl Teller<'_> {
    /// What a station reports from its event `first` to its event `last`, nothing left out: "0 (line 4), then 60 (lines 7 to 9)".
    pub fn reports(&self, station: usize, first: u8, last: u8, aspects: &[Aspect]) -> String {
        let mut runs: Vec<(String, Vec<Run>)> = vec![];
        for number in first..=last {
            let report = self.report(station, number, aspects);
            match runs.last_mut() {
                Some((told, run)) if *told == report => run[0].1 = number,
                _ => runs.push((report, vec![(number, number)])),
            }
        }
        let groups = grouped(&runs);
        let (runs, word) = if runs.len() >= MANY && groups.len() < runs.len() { (groups, " or ") } else { (runs, ", then ") };
        let told = runs.iter().map(|(report, runs)| format!("{report} ({})", self.places(station, runs)));
        told.collect::<Vec<String>>().join(word)
    }

    /// What a station reports with one event, as far as it is asked for.
    pub fn report(&self, station: usize, number: u8, aspects: &[Aspect]) -> String {
        let event = &self.log.stations[station][number as usize];
        let told = aspects.iter().map(|aspect| match aspect {
            Aspect::Value => self.names.report(station, event.value),
            Aspect::Panel => format!("at panel {}", event.panel),
        });
        told.collect::<Vec<String>>().join(" ")
    }

    /// Where an event stands.
    pub fn line(&self, station: usize, number: u8) -> String {
        (self.place)(self.log.stations[station][number as usize].line)
    }

    /// "desk's event 2 (line 6)".
    pub fn event(&self, station: usize, number: u8) -> String {
        format!("{}'s event {number} ({})", self.names.station(station), self.line(station, number))
    }

    pub fn goes_no_further(&self, station: usize, count: u8) -> String {
        match count {
            0 => format!("such a moment comes before {}'s first event", self.names.station(station)),
            _ => format!("such a moment goes no further than {}", self.event(station, count)),
        }
    }

    /// Where runs of a station's events stand: "before its first event, and lines 4, 8 to 12".
    fn places(&self, station: usize, runs: &[Run]) -> String {
        let events = runs.iter().flat_map(|(first, last)| (*first).max(1)..=*last);
        let lines: Vec<String> = events.map(|number| self.line(station, number)).collect();
        let before = if self.log.full()[station] == 0 { "it has no event" } else { "before its first event" };
        let initial = runs.first().filter(|(first, _)| *first == 0).map(|_| before.to_string());
        initial.into_iter().chain(joined(&lines)).collect::<Vec<String>>().join(", and ")
    }
}

/// Places in a row, the word "line" said once, and from one to another where no other line stands between: "line 4", "lines 4 and 8",
/// "lines 4, 8 to 12, 14".
fn joined(places: &[String]) -> Option<String> {
    let numbers: Option<Vec<usize>> = places.iter().map(|place| place.strip_prefix("line ")?.parse().ok()).collect();
    let Some(numbers) = numbers else { return Some(places.join(", ")) };
    let mut spans: Vec<(usize, usize)> = vec![];
    for number in numbers {
        match spans.last_mut() {
            Some((_, last)) if *last + 1 == number => *last = number,
            _ => spans.push((number, number)),
        }
    }
    let told = spans.iter().flat_map(|(first, last)| match last - first {
        0 => vec![first.to_string()],
        1 => vec![first.to_string(), last.to_string()],
        _ => vec![format!("{first} to {last}")],
    });
    match &told.collect::<Vec<String>>()[..] {
        [] => None,
        [one] if !one.contains(' ') => Some(format!("line {one}")),
        [one, other] if !one.contains(' ') && !other.contains(' ') => Some(format!("lines {one} and {other}")),
        told => Some(format!("lines {}", told.join(", "))),
    }
}

/// Runs with equal reports together, in the order of their first ones.
fn grouped(runs: &[(String, Vec<Run>)]) -> Vec<(String, Vec<Run>)> {
    let mut groups: Vec<(String, Vec<Run>)> = vec![];
    for (report, run) in runs {
        match groups.iter_mut().find(|(told, _)| told == report) {
            Some((_, all)) => all.extend(run),
            None => groups.push((report.clone(), run.clone())),
        }
    }
    groups
}
