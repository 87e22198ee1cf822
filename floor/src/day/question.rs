//! Questions in words.
use super::errors::quote;
use super::reader::{meant, Reader};
use super::scope::Scope;
use crate::formula::Formula;
use Formula::{Always, And, Not, Or, Possibly};

/// Brackets in one another, at most.
const DEEPEST: usize = 64;

/// Parts of a question, at most, and parts with signs.
const PARTS: usize = 12;
const TOKENS: usize = 32;

/// One question, word by word. Where a method gives none the fault is told, and the line is given up.
pub struct Question<'a, 'r, 'q> {
    pub reader: &'q mut Reader<'a, 'r>,
    pub scope: &'q Scope<'a>,
    /// Brackets that are open.
    depth: usize,
}

/// The formula of a question's line.
pub fn read<'a>(scope: &Scope<'a>, reader: &mut Reader<'a, '_>) -> Option<Formula> {
    let mut question = Question { reader, scope, depth: 0 };
    if question.reader.peek().is_none() {
        let example = question.example();
        question.reader.fault(format!("the question is empty; write what is asked, such as \"question {example}\""));
        return None;
    }
    let formula = question.row()?;
    if question.reader.peek().is_some() {
        question.reader.fault("a closing bracket has no opening one; take it out, or write \"(\" where its part begins");
        return None;
    }
    question.sized(formula)
}

impl<'a> Question<'a, '_, '_> {
    pub fn example(&self) -> String {
        format!("{} is 60", self.scope.stations.first().map_or("desk", |(name, _)| name))
    }

    /// Parts joined by "and", or by "or", up to the end or a closing bracket.
    fn row(&mut self) -> Option<Formula> {
        let start = self.reader.at;
        let mut formula = self.part()?;
        let (mut last, mut before) = (start, None);
        while let Some(word) = self.joint()? {
            self.one_way(start, last, before, word)?;
            (last, before) = (self.reader.at, Some(word));
            let right = Box::new(self.part()?);
            formula = if word == "and" { And(Box::new(formula), right) } else { Or(Box::new(formula), right) };
        }
        Some(formula)
    }

    /// The word that joins the part before it to one more, taken; none at the end of the row.
    fn joint(&mut self) -> Option<Option<&'a str>> {
        let word = match self.reader.peek() {
            None | Some(")") => return Some(None),
            Some("and" | "or") => return Some(self.reader.take()),
            Some(word) => word,
        };
        let begins = matches!(word, "(" | "nothing") || is_sign(word) || self.scope.station_places.contains_key(word);
        match self.reader.errors.speller.nearest(word, ["and", "or"]) {
            _ if begins => self.reader.fault(format!("\"and\" or \"or\" is missing before {}; write the one that is meant", quote(word))),
            Some(near) => self.reader.fault(meant(word, near)),
            None => self.reader.fault(format!("{} is left over; behind a part comes \"and\", \"or\" or the end of the line", quote(word))),
        }
        None
    }

    /// Whether a row that began at `start`, with its last part at `last`, can be joined by the word just taken, after the one before it.
    fn one_way(&mut self, start: usize, last: usize, before: Option<&str>, word: &str) -> Option<()> {
        let reader = &mut self.reader;
        let (here, first) = (reader.at - 1, reader.line.words[last]);
        if is_sign(first) {
            let operand = brief(reader.text(last + 1, here));
            let whole = quote(&format!("{first} {operand} {word}"));
            let one = quote(&format!("({first} {operand}) {word} ..."));
            let other = quote(&format!("{first} ({operand} {word} ...)"));
            reader.fault(format!("{whole} reads two ways; write {one} or {other}"));
        } else if let Some(before) = before.filter(|b| *b != word) {
            let (left, part) = (brief(reader.text(start, last - 1)), brief(reader.text(last, here)));
            let one = quote(&format!("({left} {before} {part}) {word} ..."));
            let other = quote(&format!("{left} {before} ({part} {word} ...)"));
            reader.fault(format!("\"and\" and \"or\" without brackets read two ways; write {one} or {other}"));
        } else {
            return Some(());
        }
        None
    }

    /// Signs, and behind them brackets or one thing asked of a station.
    fn part(&mut self) -> Option<Formula> {
        let start = self.reader.at;
        while self.reader.peek().is_some_and(is_sign) {
            self.reader.take();
        }
        let end = self.reader.at;
        let operand = if self.reader.skip("(") { self.bracket()? } else { self.atom()? };
        let signs = self.reader.line.words[start..end].iter().rev();
        Some(signs.fold(operand, |formula, sign| match *sign {
            "not" => Not(Box::new(formula)),
            "possibly" => Possibly(Box::new(formula)),
            _ => Always(Box::new(formula)),
        }))
    }

    /// Behind an opening bracket.
    fn bracket(&mut self) -> Option<Formula> {
        let start = self.reader.at;
        self.depth += 1;
        if self.depth > DEEPEST {
            self.reader.fault(format!("more than {DEEPEST} brackets in one another; brackets round brackets add nothing, take them out"));
            return None;
        }
        if self.reader.peek() == Some(")") {
            let example = self.example();
            self.reader.fault(format!("nothing stands between the brackets; write a part there, such as \"{example}\", or take them out"));
            return None;
        }
        let formula = self.row()?;
        self.depth -= 1;
        if !self.reader.skip(")") {
            let inside = self.reader.text(start, self.reader.at);
            self.reader.fault(format!("the bracket before {} is not closed; write \")\" where its part ends", quote(&inside)));
            return None;
        }
        Some(formula)
    }

    /// The formula, if it is not too large to be asked.
    fn sized(&mut self, formula: Formula) -> Option<Formula> {
        let (parts, signs) = (count(&formula, true), count(&formula, false));
        if parts > PARTS {
            self.too_large(parts, "parts (in, is, panel, nothing)", PARTS)
        } else if parts + signs > TOKENS {
            self.too_large(parts + signs, "parts and signs (not, possibly, always, and, or)", TOKENS)
        } else {
            Some(formula)
        }
    }

    fn too_large(&mut self, count: usize, what: &str, most: usize) -> Option<Formula> {
        self.reader.fault(format!("the question has {count} {what}, and at most {most} can be asked at once; ask it as several"));
        None
    }
}

/// Left out where it is long.
fn brief(text: String) -> String {
    if text.chars().count() > 25 { "...".to_string() } else { text }
}

pub fn is_sign(word: &str) -> bool {
    matches!(word, "not" | "possibly" | "always")
}

/// How many parts a formula has, or how many signs and joints.
fn count(formula: &Formula, parts: bool) -> usize {
    match formula {
        Not(p) | Possibly(p) | Always(p) => count(p, parts) + usize::from(!parts),
        And(p, q) | Or(p, q) => count(p, parts) + count(q, parts) + usize::from(!parts),
        _ => usize::from(parts),
    }
}
