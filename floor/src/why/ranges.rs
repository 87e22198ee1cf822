//! What the log says of a station's ranges, in words.
use super::words::Teller;
use crate::chain::{Part, Way};
use crate::formula::{inside, Aspect};
use crate::names::SILENT;

/// The ranges of one station in a way, each once.
pub struct Ranges<'a> {
    teller: &'a Teller<'a>,
    station: usize,
    ranges: Vec<&'a Part>,
}

impl<'a> Ranges<'a> {
    pub fn new(teller: &'a Teller<'a>, way: &'a Way, at: usize) -> Self {
        let mut ranges: Vec<&Part> = vec![];
        for part in &way.parts {
            if matches!(part, Part::Range { station, .. } if *station == at) && !ranges.contains(&part) {
                ranges.push(part);
            }
        }
        Ranges { teller, station: at, ranges }
    }

    /// From its event `from` on the station fits first at its event `to`.
    pub fn fits(&self, from: u8, to: u8) -> String {
        format!("{}{} {}; before that {}", self.since(from), self.fitting("first"), self.at(to), self.reports(from, to - 1))
    }

    /// Up to its event `from` the station fits last at its event `to`.
    pub fn fits_last(&self, from: u8, to: u8) -> String {
        let until = if from == self.last() { String::new() } else { format!("up to {} event {from} ", self.its()) };
        format!("{until}{} {}; after that {}", self.fitting("last"), self.at(to), self.reports(to + 1, from))
    }

    /// From its event `from` to its event `to`, and no further, the station never fits: by one of its ranges, if one is enough for that.
    pub fn none_fits(&self, from: u8, to: u8) -> String {
        let enough = |range: &&&Part| !(from..=to).any(|number| self.fits_range(range, number));
        if let Some(one) = self.ranges.iter().find(enough).filter(|_| self.ranges.len() > 1) {
            return Ranges { ranges: vec![one], ..*self }.none_fits(from, to);
        }
        let reports = self.reports(from, to);
        if to == self.last() {
            return format!("{}{}: {reports}", self.since(from), self.fitting("never"));
        }
        let limit = self.teller.goes_no_further(self.station, to);
        if from == to {
            return format!("{limit}; there {}: {reports}", self.fitting("not"));
        }
        format!("{limit}; {}up to there {}: {reports}", self.since(from), self.fitting("never"))
    }

    fn fits_range(&self, range: &Part, number: u8) -> bool {
        let event = &self.teller.log.stations[self.station][number as usize];
        match range {
            Part::Range { aspect: Aspect::Value, .. } if event.value == SILENT => false,
            Part::Range { inside: sign, aspect, lo, hi, .. } => inside(*lo, *hi, event.of(*aspect)) == *sign,
            _ => true,
        }
    }

    fn name(&self) -> String {
        self.teller.names.station(self.station)
    }

    fn last(&self) -> u8 {
        self.teller.log.full()[self.station]
    }

    /// The only range, where "desk is never 60" reads well.
    fn plain(&self) -> Option<String> {
        let [Part::Range { inside: true, aspect, lo, hi, .. }] = &self.ranges[..] else { return None };
        let value = |number: u16| self.teller.names.value(self.station, number);
        Some(match aspect {
            Aspect::Value if lo == hi => value(*lo),
            Aspect::Value => format!("in {}..{}", value(*lo), value(*hi)),
            Aspect::Panel if lo == hi => format!("at panel {lo}"),
            Aspect::Panel => format!("at panel {lo}..{hi}"),
        })
    }

    /// "desk is first 60", or "\"not desk is 60\" is first true".
    fn fitting(&self, when: &str) -> String {
        match self.plain() {
            Some(range) => format!("{} is {when} {range}", self.name()),
            None => format!("\"{}\" is {when} true", self.teller.all_of(&self.ranges)),
        }
    }

    /// The station, whose name stands before where the range is plain.
    fn its(&self) -> String {
        if self.plain().is_some() { "its".to_string() } else { format!("{}'s", self.name()) }
    }

    fn since(&self, from: u8) -> String {
        if from == 0 { String::new() } else { format!("from {} event {from} on ", self.its()) }
    }

    /// Where an event is, and what it reports, unless the ranges leave one thing to report.
    fn at(&self, number: u8) -> String {
        let one = self.ranges.iter().all(|range| matches!(range, Part::Range { inside: true, lo, hi, .. } if lo == hi));
        let report = if one { String::new() } else { format!("where it is {}", self.teller.report(self.station, number, &self.aspects())) };
        let line = if number == 0 { String::new() } else { self.teller.line(self.station, number) };
        let place = [line, report].into_iter().filter(|told| !told.is_empty()).collect::<Vec<String>>().join(", ");
        let place = if place.is_empty() { place } else { format!(" ({place})") };
        match number {
            0 => format!("before {} first event{place}", self.its()),
            _ => format!("at {} event {number}{place}", self.its()),
        }
    }

    /// What the station reports from one event to another, and, where that can be misread, that silence is not outside a range.
    fn reports(&self, first: u8, last: u8) -> String {
        let it = if self.plain().is_some() { "it".to_string() } else { self.name() };
        let outside = self.ranges.iter().any(|range| matches!(range, Part::Range { inside: false, aspect: Aspect::Value, .. }));
        let silent = (first..=last).any(|number| self.teller.log.stations[self.station][number as usize].value == SILENT);
        let note = if outside && silent { "; while silent it is neither in a range nor out of it" } else { "" };
        format!("{it} is {}{note}", self.teller.reports(self.station, first, last, &self.aspects()))
    }

    /// What the ranges look at.
    fn aspects(&self) -> Vec<Aspect> {
        let looked = |wanted: Aspect| self.ranges.iter().any(|p| matches!(p, Part::Range { aspect, .. } if *aspect == wanted));
        [Aspect::Value, Aspect::Panel].into_iter().filter(|a| looked(*a)).collect()
    }
}
