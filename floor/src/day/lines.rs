//! A day's text as lines of words.
use super::errors::{quote, Errors};

/// What a line says, by its first word.
#[derive(Clone, Copy, Debug, PartialEq)]
pub enum Kind {
    Station,
    Event,
    Message,
    Value,
    Question,
}

use Kind::*;

impl Kind {
    pub const ALL: [Kind; 5] = [Station, Event, Message, Value, Question];

    pub fn word(self) -> &'static str {
        match self {
            Station => "station",
            Event => "event",
            Message => "message",
            Value => "value",
            Question => "question",
        }
    }

    /// How the line is written.
    pub fn form(self) -> &'static str {
        match self {
            Station => "station NAME initially VALUE [panel P]",
            Event => "event NAME VALUE [panel P] [after NAME [K]]...",
            Message => "message NAME K to NAME K, or: message NAME K to NAME never",
            Value => "value NAME = NUMBER",
            Question => "NAME in A..B, NAME is V, NAME panel A..B or nothing from NAME to NAME",
        }
    }
}

/// A line that is not empty.
pub struct Line<'a> {
    pub number: usize,
    /// None where the first word is unknown.
    pub kind: Option<Kind>,
    /// Empty where the line cannot be read.
    pub words: Vec<&'a str>,
}

impl Line<'_> {
    /// A line that cannot be read.
    fn unread(number: usize) -> Self {
        Line { number, kind: None, words: vec![] }
    }
}

/// Characters of a line, at most.
const LONGEST: usize = 4096;

/// Bytes of a text, at most.
const LARGEST: usize = 1 << 20;

/// The lines of a text that say something.
pub fn lines<'a>(text: &'a str, errors: &mut Errors) -> Vec<Line<'a>> {
    if let Some(fault) = no_day(text) {
        errors.add(1, fault);
        return vec![Line::unread(1)];
    }
    let text = text.strip_prefix('\u{feff}').unwrap_or(text);
    let numbered = (1..).zip(text.split('\n'));
    numbered.filter_map(|(number, line)| read(number, line.strip_suffix('\r').unwrap_or(line), errors)).collect()
}

/// Whether bytes are a day rather than a log: a line of theirs begins with station.
pub fn is_day(bytes: &[u8]) -> bool {
    let station = |line: &str| line.split_whitespace().next() == Some(Station.word());
    std::str::from_utf8(bytes).is_ok_and(|text| text.lines().any(station))
}

/// What keeps a text from being a day.
fn no_day(text: &str) -> Option<String> {
    let size = text.len();
    if size > LARGEST {
        return Some(format!("the file has {size} bytes, and at most {LARGEST} are read; is it a day in words?"));
    }
    let first = text.lines().next().unwrap_or("");
    let log = first.len() >= 8 && (first.starts_with("10") || first.starts_with("11")) && first.bytes().all(|b| b.is_ascii_hexdigit());
    log.then(|| "this is a log and not a day in words; \"floor explain\" answers the questions of a log".to_string())
}

fn read<'a>(number: usize, line: &'a str, errors: &mut Errors) -> Option<Line<'a>> {
    if let Some(fault) = unreadable(line) {
        errors.add(number, fault);
        return Some(Line::unread(number));
    }
    let words = words(line.split('#').next().unwrap_or(line));
    let first = *words.first()?;
    let kind = |word: &str| Kind::ALL.into_iter().find(|k| k.word() == word);
    if kind(first).is_some() {
        return Some(Line { number, kind: kind(first), words });
    }
    let near = errors.speller.nearest(first, Kind::ALL.map(Kind::word));
    if let Some(near) = near {
        errors.add(number, format!("no line begins with {}; is \"{near}\" meant?", quote(first)));
    }
    Some(Line { number, kind: near.and_then(kind), words })
}

/// What keeps a line from being read as it is seen.
fn unreadable(line: &str) -> Option<String> {
    let hidden = |c: &char| c.is_control() && *c != '\t' || matches!(c, '\u{2028}'..='\u{202e}' | '\u{2066}'..='\u{2069}');
    if line.contains('\r') {
        return Some("a carriage return stands inside the line, U+000D; end each line with a line feed".to_string());
    }
    if let Some(c) = line.chars().find(hidden) {
        return Some(format!("a character that does not show, U+{:04X}, stands in the line; take it out, in a comment too", c as u32));
    }
    let size = line.chars().count();
    (size > LONGEST).then(|| format!("the line has {size} characters, and at most {LONGEST} are read; shorten it, or its comment"))
}

/// Brackets, = and .. are words of their own.
fn words(line: &str) -> Vec<&str> {
    let (mut words, mut rest) = (vec![], line.trim_start());
    while !rest.is_empty() {
        let (word, behind) = rest.split_at(size(rest));
        words.push(word);
        rest = behind.trim_start();
    }
    words
}

/// The bytes of the word at the front of a text.
fn size(text: &str) -> usize {
    let sign = |c: char| matches!(c, '(' | ')' | '=');
    if text.starts_with("..") {
        return 2;
    }
    if text.starts_with(sign) {
        return 1;
    }
    let end = |(at, c): &(usize, char)| c.is_whitespace() || sign(*c) || text[*at..].starts_with("..");
    text.char_indices().find(end).map_or(text.len(), |(at, _)| at)
}
