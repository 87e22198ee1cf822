//! A file that names stations and values, such as a day.
use super::errors::{quote, Errors};
use super::lines::{lines, Kind, Line};
use super::reader::Reader;
use super::record;
use super::scope::Scope;
use crate::names::Names;

/// The names of a file for a log of that many stations, all different from one another. What a day has beside names is not looked into.
pub fn names(file: &str, text: &str, stations: usize) -> Result<Names, Vec<String>> {
    let mut errors = Errors::new(file);
    let lines = lines(text, &mut errors);
    let scope = declared(&lines, &mut errors);
    fitting(&scope, stations, &mut errors);
    errors.told().map(|()| scope.names(&lines))
}

/// No more stations than the log has, and no name that a station without one goes by.
fn fitting(scope: &Scope, stations: usize, errors: &mut Errors) {
    if let Some((name, line)) = scope.stations.get(stations) {
        let named = scope.stations.len();
        let fault = format!("{} is station {} of {named}, and the log has {stations}", quote(name), stations + 1);
        errors.add(*line, format!("{fault}; is this another day's file?"));
    }
    for station in scope.stations.len()..stations {
        let called = Names::default().station(station);
        let taken = scope.station_places.get(&called[..]).or(scope.value_places.get(&called[..]));
        if let Some((_, line)) = taken {
            let fault = format!("\"{called}\" is what the log's station {station} is called, which has no name here");
            errors.add(*line, format!("{fault}; name that station too, or choose another name here"));
        }
    }
}

fn declared<'a>(lines: &[Line<'a>], errors: &mut Errors) -> Scope<'a> {
    record::limited(lines, &[Kind::Station], errors);
    let scope = Scope::declared(lines, errors);
    for line in lines {
        match line.kind {
            None => record::strange(line, &scope, errors),
            Some(Kind::Station) => station(&mut Reader::new(line, errors)),
            _ => {}
        }
    }
    scope
}

/// `NAME` alone, or with what a day has behind it.
fn station(reader: &mut Reader) {
    if reader.take().is_some() && reader.peek().is_some() {
        reader.word("initially");
    }
}
