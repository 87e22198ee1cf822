//! One line, read word by word.
use super::errors::{quote, Errors};
use super::lines::Line;

/// The words of a line, taken in turn; what is wrong with them goes to the errors.
pub struct Reader<'a, 'r> {
    pub line: &'r Line<'a>,
    pub errors: &'r mut Errors,
    /// The place of the next word.
    pub at: usize,
    /// Nothing was wrong so far.
    pub sound: bool,
}

impl<'a, 'r> Reader<'a, 'r> {
    /// Behind the first word.
    pub fn new(line: &'r Line<'a>, errors: &'r mut Errors) -> Self {
        Reader { line, errors, at: 1, sound: true }
    }

    pub fn fault(&mut self, text: impl Into<String>) {
        self.errors.add(self.line.number, text);
        self.sound = false;
    }

    pub fn peek(&self) -> Option<&'a str> {
        self.line.words.get(self.at).copied()
    }

    pub fn take(&mut self) -> Option<&'a str> {
        let word = self.peek();
        self.at += usize::from(word.is_some());
        word
    }

    /// Takes the next word if it is this one.
    pub fn skip(&mut self, word: &str) -> bool {
        let there = self.peek() == Some(word);
        self.at += usize::from(there);
        there
    }

    /// The word taken last, in quotes.
    pub fn last(&self) -> String {
        quote(self.line.words.get(self.at - 1).unwrap_or(&""))
    }

    pub fn form(&self) -> &'static str {
        self.line.kind.map_or("", |k| k.form())
    }

    /// The words from one place to before another, as they are written.
    pub fn text(&self, from: usize, to: usize) -> String {
        written(&self.line.words[from..to])
    }

    /// The word that has to stand here, whatever it is.
    pub fn need(&mut self, what: &str) -> Option<&'a str> {
        if self.peek().is_none() {
            self.fault(format!("{what} is missing behind {}; write: {}", self.last(), self.form()));
        }
        self.take()
    }

    /// The word of the language that has to stand here.
    pub fn word(&mut self, word: &'static str) -> Option<()> {
        match self.peek() {
            Some(next) if next == word => {}
            Some(next) if self.errors.speller.nearest(next, [word]).is_some() => self.fault(meant(next, word)),
            Some(next) => {
                let whole = [&self.line.words[..self.at], &[word], &self.line.words[self.at..]].concat();
                self.fault(format!("\"{word}\" is missing before {}; is {} meant?", quote(next), quote(&written(&whole))));
                return None;
            }
            None => {
                self.fault(format!("\"{word}\" is missing behind {}; write: {}", self.last(), self.form()));
                return None;
            }
        }
        self.at += 1;
        Some(())
    }

    /// A number from 0 to the most.
    pub fn number(&mut self, what: &str, most: usize) -> Option<usize> {
        let word = self.need(what)?;
        match digits(word) {
            Some(number) if number <= most => Some(number),
            Some(_) => {
                self.fault(format!("{} is too large; {what} is at most {most}", short(word)));
                None
            }
            None => {
                self.fault(format!("{} is no number; {what} is decimal digits, from 0 to {most}", quote(word)));
                None
            }
        }
    }

    /// Nothing may be left over. The words given could have stood here.
    pub fn end(&mut self, allowed: &[&'static str]) -> Option<()> {
        let Some(word) = self.peek() else { return Some(()) };
        match self.errors.speller.nearest(word, allowed.iter().copied()) {
            Some(near) => self.fault(meant(word, near)),
            None => self.fault(format!("{} is left over at the end of the line; write: {}", quote(word), self.form())),
        }
        None
    }
}

pub fn meant(word: &str, near: &str) -> String {
    format!("no word {} here; is \"{near}\" meant?", quote(word))
}

/// The number of a word that is digits and nothing else; one that is too large for any use is the largest.
pub fn digits(word: &str) -> Option<usize> {
    (!word.is_empty() && word.bytes().all(|b| b.is_ascii_digit())).then(|| word.parse().unwrap_or(usize::MAX))
}

/// A number as it was written, cut short.
pub fn short(digits: &str) -> String {
    if digits.len() <= 20 { digits.to_string() } else { format!("{}...", &digits[..17]) }
}

fn written(words: &[&str]) -> String {
    words.join(" ").replace("( ", "(").replace(" )", ")").replace(" .. ", "..")
}
