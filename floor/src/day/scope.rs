//! The names that a file gives to stations and values.
use super::errors::{quote, Errors};
use super::lines::{Kind, Line};
use super::name;
use super::reader::Reader;
use crate::names::SILENT;
use std::collections::HashMap;

/// Names in the order of the file. One that is at fault counts too, so that its uses are no further errors.
#[derive(Default)]
pub struct Scope<'a> {
    /// Each with its line.
    pub stations: Vec<(&'a str, usize)>,
    pub values: Vec<(&'a str, u16)>,
    /// For each name its place in the list, and its line.
    pub station_places: HashMap<&'a str, (usize, usize)>,
    pub value_places: HashMap<&'a str, (usize, usize)>,
}

impl<'a> Scope<'a> {
    /// The names of a file, of its lines with station and value.
    pub fn declared(lines: &[Line<'a>], errors: &mut Errors) -> Self {
        let mut scope = Scope::default();
        for line in lines {
            let mut reader = Reader::new(line, errors);
            match line.kind {
                Some(Kind::Station) => scope.declare_station(&mut reader),
                Some(Kind::Value) => scope.declare_value(&mut reader),
                _ => continue,
            };
        }
        scope
    }

    fn declare_station(&mut self, reader: &mut Reader<'a, '_>) -> Option<()> {
        let name = name::given(reader, "initially")?;
        let line = reader.line.number;
        if let Some((_, first)) = self.station_places.get(name) {
            let later = quote(&format!("event {name} VALUE"));
            reader.fault(format!("station {} stands at line {first} already; what it reports later is an event: {later}", quote(name)));
            return None;
        }
        if let Some((_, first)) = self.value_places.get(name) {
            reader.fault(format!("{} is a value's name (line {first}); call the station something else", quote(name)));
        }
        self.station_places.insert(name, (self.stations.len(), line));
        self.stations.push((name, line));
        Some(())
    }

    fn declare_value(&mut self, reader: &mut Reader<'a, '_>) -> Option<()> {
        let name = name::given(reader, "=")?;
        let line = reader.line.number;
        if let Some((_, first)) = self.value_places.get(name) {
            reader.fault(format!("value {} stands at line {first} already; choose another name for this one", quote(name)));
            return None;
        }
        if let Some((_, first)) = self.station_places.get(name) {
            reader.fault(format!("{} is a station's name (line {first}); call the value something else", quote(name)));
        }
        self.value_places.insert(name, (self.values.len(), line));
        self.values.push((name, 0));
        reader.word("=")?;
        if reader.skip("silent") {
            reader.fault("\"silent\" needs no name and is no number; write it where a station is silent");
            return None;
        }
        let number = reader.number("a named value", usize::from(SILENT) - 1)?;
        self.values.last_mut()?.1 = number as u16;
        reader.end(&[])
    }
}
