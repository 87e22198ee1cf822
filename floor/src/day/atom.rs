//! What a question can ask of one station, and of the way between two.
use super::errors::quote;
use super::name;
use super::question::{is_sign, Question};
use super::reader::{digits, meant};
use crate::formula::{Aspect, Formula};

impl<'a> Question<'a, '_, '_> {
    /// `NAME in A..B`, `NAME is V`, `NAME panel A..B` or `nothing from NAME to NAME`.
    pub fn atom(&mut self) -> Option<Formula> {
        let Some(word) = self.reader.peek() else {
            let fault = format!("a part is missing behind {}; write one, such as \"{}\"", self.reader.last(), self.example());
            self.reader.fault(fault);
            return None;
        };
        match word {
            "nothing" => self.clear(),
            "never" => {
                self.reader.fault("\"never\" cannot stand in a question; write \"not possibly\" for what is never so from there on");
                None
            }
            _ if name::is_own(word) && !self.scope.station_places.contains_key(word) => {
                let fault = format!("a part is missing before {}; write one, such as \"{}\"", quote(word), self.example());
                self.reader.fault(fault);
                None
            }
            _ => self.asked(),
        }
    }

    /// `nothing from NAME to NAME`.
    fn clear(&mut self) -> Option<Formula> {
        self.reader.take();
        self.reader.word("from")?;
        let from = self.scope.station(self.reader);
        self.reader.word("to")?;
        let to = self.scope.station(self.reader);
        Some(Formula::Clear { from: from.unwrap_or(0), to: to.unwrap_or(0) })
    }

    /// What begins with a station's name.
    fn asked(&mut self) -> Option<Formula> {
        let name = self.reader.peek()?;
        let follows = self.reader.line.words.get(self.reader.at + 1).copied();
        let asks = matches!(follows, Some("in" | "is" | "panel"));
        let known = self.scope.station_places.contains_key(name);
        if let Some(near) = self.reader.errors.speller.nearest(name, ["not", "possibly", "always", "nothing"]).filter(|_| !known && !asks) {
            self.reader.fault(meant(name, near));
            return None;
        }
        let station = self.scope.station(self.reader);
        if !asks {
            return self.unasked(name, known, follows);
        }
        let station = station.unwrap_or(0);
        let (aspect, (lo, hi)) = match self.reader.take() {
            Some("in") => (Aspect::Value, self.range(name)?),
            Some("is") => (Aspect::Value, self.one(name)?),
            _ => (Aspect::Panel, self.panels(name)?),
        };
        Some(Formula::Range { aspect, station, lo, hi })
    }

    /// A station that is not asked for anything in the language's words.
    fn unasked(&mut self, name: &str, known: bool, follows: Option<&str>) -> Option<Formula> {
        if !known {
            return None;
        }
        let near = follows.and_then(|word| self.reader.errors.speller.nearest(word, ["in", "is", "panel"]));
        let is = |value: &str| ask(name, &format!("is {value}"));
        let fault = match (follows, near) {
            (Some(word), Some(near)) => meant(word, near),
            (Some("="), _) => format!("\"=\" cannot stand in a question; is {} meant?", is(self.second("V"))),
            (Some(word), _) if digits(word).is_some() || self.scope.value_places.contains_key(word) => {
                format!("\"in\", \"is\" or \"panel\" is missing behind {}; is {} meant?", quote(name), is(word))
            }
            (Some(word), _) if !name::is_own(word) => {
                format!("behind {} comes \"in\", \"is\" or \"panel\", and not {}; such as {}", quote(name), quote(word), is("60"))
            }
            _ => format!("nothing is asked of {}; write {}, {} or {}", quote(name), ask(name, "in A..B"), is("V"), ask(name, "panel A..B")),
        };
        self.reader.fault(fault);
        None
    }

    /// The word behind the next one, or what stands for it.
    fn second(&self, otherwise: &'a str) -> &'a str {
        self.reader.line.words.get(self.reader.at + 1).copied().unwrap_or(otherwise)
    }

    /// `A..B`, behind in.
    fn range(&mut self, name: &str) -> Option<(u16, u16)> {
        let first = self.reader.peek().unwrap_or("A");
        if let Some((a, b)) = first.split_once(['-', '.', ':', ',']).filter(|(a, b)| digits(a).is_some() && digits(b).is_some()) {
            self.reader.fault(format!("{} is no range; is {} meant?", quote(first), quote(&format!("{a}..{b}"))));
            return None;
        }
        let sound = self.reader.sound;
        let lo = self.end(name)?;
        if self.reader.skip("..") {
            return Some((lo, self.end(name)?));
        }
        if sound && !self.reader.sound {
            return None;
        }
        let range = |last: &str| ask(name, &format!("in {first}..{last}"));
        let fault = match self.reader.peek() {
            Some("to" | "-") => format!("a range is written with \"..\"; is {} meant?", range(self.second("B"))),
            _ => format!("a range has two ends with \"..\" between; write {} or {}", range("B"), ask(name, &format!("is {first}"))),
        };
        self.reader.fault(fault);
        None
    }

    /// One end of a range; 0 for one that is unknown, which is a fault told.
    fn end(&mut self, name: &str) -> Option<u16> {
        if self.reader.peek() == Some("silent") {
            self.reader.fault(silence(name));
            return None;
        }
        let at = self.reader.at;
        let value = self.scope.value(self.reader, u16::MAX, None);
        if self.reader.at == at { None } else { Some(value.unwrap_or(0)) }
    }

    /// `V`, behind is.
    fn one(&mut self, name: &str) -> Option<(u16, u16)> {
        if let Some(sign) = self.reader.peek().filter(|w| is_sign(w)) {
            let whole = format!("{sign} {name} is {}", self.second("V"));
            self.reader.fault(format!("\"{sign}\" stands before the station's name; write {}", quote(&whole)));
            return None;
        }
        let word = self.reader.peek().unwrap_or("");
        let value = self.end(name)?;
        if self.reader.skip("..") {
            let range = format!("in {word}..{}", self.reader.peek().unwrap_or("B"));
            self.reader.fault(format!("\"is\" has one value and \"in\" a range; is {} meant?", ask(name, &range)));
            return None;
        }
        Some((value, value))
    }

    /// `A..B`, or `P` alone, behind panel.
    fn panels(&mut self, name: &str) -> Option<(u16, u16)> {
        if let Some(word @ ("in" | "is")) = self.reader.peek() {
            let (one, range) = (ask(name, "panel P"), ask(name, "panel A..B"));
            self.reader.fault(format!("\"panel\" needs no \"{word}\" behind it; write {one} or {range}"));
            return None;
        }
        let lo = self.reader.number("a panel's number", usize::from(u16::MAX))? as u16;
        if !self.reader.skip("..") {
            return Some((lo, lo));
        }
        Some((lo, self.reader.number("a panel's number", usize::from(u16::MAX))? as u16))
    }
}

fn ask(name: &str, what: &str) -> String {
    quote(&format!("{name} {what}"))
}

fn silence(name: &str) -> String {
    format!("silence cannot be asked for; {} is true exactly while {name} speaks", ask(name, "in 0..65535"))
}
