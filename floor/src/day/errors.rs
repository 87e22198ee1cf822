//! The errors of a file, collected.
use super::spelling::Speller;
use std::collections::HashMap;

pub struct Errors {
    file: String,
    found: Vec<Found>,
    /// Where the error of a text stands among those found.
    places: HashMap<String, usize>,
    pub speller: Speller,
}

/// One error, and every line that has it.
struct Found {
    text: String,
    lines: Vec<usize>,
}

/// Further lines of an error that are shown.
const SHOWN: usize = 5;

impl Errors {
    pub fn new(file: &str) -> Self {
        Errors { file: file.to_string(), found: vec![], places: HashMap::new(), speller: Speller::new() }
    }

    /// What is wrong, and what to do or what was meant. The same of several lines is told once.
    pub fn add(&mut self, line: usize, text: impl Into<String>) {
        let text = text.into();
        match self.places.get(&text) {
            Some(&place) => self.found[place].lines.push(line),
            None => {
                self.places.insert(text.clone(), self.found.len());
                self.found.push(Found { text, lines: vec![line] });
            }
        }
    }

    /// None, or a line for each in the order of the file.
    pub fn told(mut self) -> Result<(), Vec<String>> {
        for found in &mut self.found {
            found.lines.sort_unstable();
            found.lines.dedup();
        }
        self.found.sort_by_key(|f| f.lines[0]);
        let tell = |f: &Found| format!("{}:{}: {}{}", self.file, f.lines[0], f.text, also(&f.lines[1..]));
        let told: Vec<String> = self.found.iter().map(tell).collect();
        if told.is_empty() { Ok(()) } else { Err(told) }
    }
}

fn also(lines: &[usize]) -> String {
    let shown: Vec<String> = lines.iter().take(SHOWN).map(usize::to_string).collect();
    match (lines.len(), lines.len().saturating_sub(SHOWN)) {
        (0, _) => String::new(),
        (1, _) => format!(" (also at line {})", shown[0]),
        (_, 0) => format!(" (also at lines {})", listed(&shown)),
        (_, more) => format!(" (also at lines {} and {more} more)", shown.join(", ")),
    }
}

/// "a, b and c".
pub fn listed(words: &[String]) -> String {
    match words {
        [] => String::new(),
        [one] => one.clone(),
        [first @ .., last] => format!("{} and {last}", first.join(", ")),
    }
}

/// Letters of a word or phrase that are shown.
const LONGEST: usize = 60;

/// In quotes, what cannot be seen written out, and cut short.
pub fn quote(text: &str) -> String {
    if text.chars().count() <= LONGEST {
        return format!("{text:?}");
    }
    let short: String = text.chars().take(LONGEST - 3).collect();
    format!("{:?}", short + "...")
}
