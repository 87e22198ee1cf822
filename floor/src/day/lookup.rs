//! Names looked up where they are used.
use super::errors::{listed, quote};
use super::name;
use super::reader::{digits, meant, short, Reader};
use super::scope::Scope;
use crate::names::SILENT;
use moment::STATIONS;

impl<'a> Scope<'a> {
    /// The station that is named here. An unknown one is taken for the one that is near, if any.
    pub fn station(&self, reader: &mut Reader<'a, '_>) -> Option<usize> {
        let word = reader.need("a station's name")?;
        let Some(&(place, line)) = self.station_places.get(word) else {
            return self.unknown_station(word, reader);
        };
        if line > reader.line.number {
            reader.fault(format!("station {} comes only at line {line}; put that line above this one", quote(word)));
        }
        (place < STATIONS).then_some(place)
    }

    /// The stations that a log can have.
    fn known(&self) -> impl Iterator<Item = &'a str> + '_ {
        self.stations.iter().take(STATIONS).map(|(name, _)| *name)
    }

    fn unknown_station(&self, word: &str, reader: &mut Reader<'a, '_>) -> Option<usize> {
        let near = reader.errors.speller.nearest(word, self.known());
        let names: Vec<String> = self.known().map(str::to_string).collect();
        reader.sound = false;
        if name::is_own(word) {
            reader.at -= 1;
            reader.fault(format!("a station's name is missing before {}; write: {}", quote(word), reader.form()));
        } else if self.value_places.contains_key(word) {
            reader.fault(format!("{} is a value's name; a station's name belongs here", quote(word)));
        } else if let Some(near) = near {
            reader.fault(format!("no station {}; is {} meant?", quote(word), quote(near)));
            return self.known().position(|name| name == near);
        } else if names.len() == 1 {
            reader.fault(format!("no station {}; the only one is {}", quote(word), names[0]));
        } else if names.len() > 1 {
            reader.fault(format!("no station {}; the stations are {}", quote(word), listed(&names)));
        }
        None
    }

    /// What a station reports: a value, or that it is silent.
    pub fn report(&self, reader: &mut Reader<'a, '_>) -> Option<u16> {
        if reader.skip("silent") { Some(SILENT) } else { self.value(reader, SILENT - 1, Some("silent")) }
    }

    /// The number, or name of one, that stands here, up to the most. `or` is a word that could have stood here too.
    pub fn value(&self, reader: &mut Reader<'a, '_>, most: u16, or: Option<&'static str>) -> Option<u16> {
        let word = reader.need("a value")?;
        if name::is_own(word) {
            reader.at -= 1;
            reader.fault(format!("a value is missing before {}; write: {}", quote(word), reader.form()));
            return None;
        }
        if let Some(&(place, _)) = self.value_places.get(word) {
            return Some(self.values[place].1);
        }
        let fault = match digits(word) {
            Some(number) if number <= usize::from(most) => return Some(number as u16),
            Some(number) if number == usize::from(SILENT) => format!("{number} is what a silent station reports; write \"silent\" for it"),
            Some(_) => format!("{} is too large; a value is at most {most}", short(word)),
            None => self.no_value(word, reader, or),
        };
        reader.fault(fault);
        None
    }

    fn no_value(&self, word: &str, reader: &mut Reader<'a, '_>, or: Option<&'static str>) -> String {
        if self.station_places.contains_key(word) {
            return format!("{} is a station; a value is a number or the name of one", quote(word));
        }
        let known = self.values.iter().map(|(name, _)| *name).chain(or);
        match reader.errors.speller.nearest(word, known) {
            Some(near) if Some(near) == or => meant(word, near),
            Some(near) => format!("no value {}; is {} meant?", quote(word), quote(near)),
            None if name::fault_of(word).is_none() => {
                format!("no value {}; write a number, or give it one by a line {}", quote(word), quote(&format!("value {word} = NUMBER")))
            }
            None => format!("{} is no number; a value is decimal digits, or a name given by \"value\"", quote(word)),
        }
    }
}
