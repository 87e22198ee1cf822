//! What stations and values are called, and what can be a name.

/// The language's own words, which name nothing.
const WORDS: [&str; 20] = [
    "station", "event", "message", "value", "question", "initially", "panel", "after", "to", "never", "in", "is", "nothing", "from", "not",
    "possibly", "always", "and", "or", "silent",
];

/// The most characters of a name.
pub const LONGEST: usize = 64;

pub fn is_word(name: &str) -> bool {
    WORDS.contains(&name)
}

/// A character that can stand in a name.
pub fn fits_name(c: char) -> bool {
    c.is_alphabetic() || c.is_ascii_digit() || c == '-' || c == '_'
}

/// A name begins with a letter.
pub fn is_formed(name: &str) -> bool {
    name.starts_with(char::is_alphabetic) && name.chars().all(fits_name)
}

pub fn is_name(name: &str) -> bool {
    is_formed(name) && name.chars().count() <= LONGEST && !is_word(name)
}

/// A name for a number, and the stations at which it is used. One that is used at none holds at all.
#[derive(Clone, Debug, PartialEq)]
pub struct Value {
    pub name: String,
    pub number: u16,
    pub stations: Vec<usize>,
}

/// Names of stations, by their numbers, and of values.
#[derive(Clone, Debug, Default, PartialEq)]
pub struct Names {
    pub stations: Vec<String>,
    pub values: Vec<Value>,
}

/// A station that is silent reports this value.
pub const SILENT: u16 = u16::MAX;

impl Names {
    /// A station that was given no name is called by its number.
    pub fn station(&self, station: usize) -> String {
        self.stations.get(station).cloned().unwrap_or_else(|| format!("s{station}"))
    }

    /// The first name of a number at a station, or its digits.
    pub fn value(&self, station: usize, number: u16) -> String {
        let named = |v: &&Value| v.number == number && (v.stations.is_empty() || v.stations.contains(&station));
        self.values.iter().find(named).map_or_else(|| number.to_string(), |v| v.name.clone())
    }

    /// The value that an event of a station reports.
    pub fn report(&self, station: usize, value: u16) -> String {
        if value == SILENT { "silent".to_string() } else { self.value(station, value) }
    }

    /// The same names of stations, and none of values.
    pub fn numbers(&self) -> Names {
        Names { stations: self.stations.clone(), values: vec![] }
    }
}
