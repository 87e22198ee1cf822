//! A whole day: what its lines say, in the order of a log.
use super::errors::{quote, Errors};
use super::events::{self, Events, Report};
use super::lines::{Kind, Line};
use super::messages::{self, Message};
use super::question;
use super::reader::Reader;
use super::scope::Scope;
use crate::formula::Formula;
use moment::STATIONS;

#[derive(Default)]
pub struct Record {
    pub stations: [Report; STATIONS],
    pub events: Events,
    pub messages: Vec<Message>,
    /// Each with its line.
    pub questions: Vec<(Formula, usize)>,
}

impl Record {
    pub fn read<'a>(lines: &[Line<'a>], scope: &Scope<'a>, errors: &mut Errors) -> Self {
        let mut record = Record::default();
        for line in lines {
            record.take(line, scope, errors);
        }
        record.messages.iter().for_each(|m| messages::check(m, scope, &record.events, errors));
        record
    }

    fn take<'a>(&mut self, line: &Line<'a>, scope: &Scope<'a>, errors: &mut Errors) {
        let mut reader = Reader::new(line, errors);
        match line.kind {
            Some(Kind::Station) => self.station(scope, &mut reader),
            Some(Kind::Event) => self.events.read(scope, &mut reader),
            Some(Kind::Message) => self.messages.extend(messages::read(scope, &mut reader)),
            Some(Kind::Question) => self.questions.extend(question::read(scope, &mut reader).map(|f| (f, line.number))),
            Some(Kind::Value) => {}
            None => {
                self.events.gap = true;
                strange(line, scope, errors);
            }
        }
    }

    /// A line that gives a station, if it is the one by which the station is known.
    fn station<'a>(&mut self, scope: &Scope<'a>, reader: &mut Reader<'a, '_>) {
        let known = reader.peek().and_then(|name| scope.station_places.get(name)).filter(|(_, line)| *line == reader.line.number);
        let Some(&(place, _)) = known else { return };
        let report = events::station(scope, reader).unwrap_or_default();
        if let Some(station) = self.stations.get_mut(place) {
            *station = report;
        }
    }
}

/// A line that begins with no word of the language or one near it.
pub fn strange(line: &Line, scope: &Scope, errors: &mut Errors) {
    let Some(first) = line.words.first() else { return };
    let kinds = "a line begins with station, event, message, value or question";
    if scope.station_places.contains_key(first) {
        errors.add(line.number, format!("{kinds}; is {} meant?", quote(&format!("event {}", line.words.join(" ")))));
    } else {
        errors.add(line.number, format!("no line begins with {}; {kinds}", quote(first)));
    }
}

/// No more lines of a kind than a log can have.
pub fn limited(lines: &[Line], kinds: &[Kind], errors: &mut Errors) {
    for &kind in kinds {
        let (most, advice) = match kind {
            Kind::Station => (STATIONS, "leave one out only if what others saw through it is said by \"after\""),
            Kind::Event => (moment::EVENTS, "split it where all stations have waited for each other, else moments are missed"),
            Kind::Message => (moment::MESSAGES, "leave out those that no question needs"),
            Kind::Question => (moment::QUESTIONS, "ask the others in a copy of the day"),
            Kind::Value => continue,
        };
        let numbers: Vec<usize> = lines.iter().filter(|l| l.kind == Some(kind)).map(|l| l.number).collect();
        if let Some(&first) = numbers.get(most) {
            let (word, count) = (kind.word(), numbers.len());
            errors.add(first, format!("{word} {} of {count}: a day has at most {most} {word}s; {advice}", most + 1));
        }
    }
}
