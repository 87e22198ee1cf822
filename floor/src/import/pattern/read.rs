//! Patterns read from their text.
use super::Node::{self, *};
use super::{Item, Set};

/// Brackets in one another, at most, and the most times that a repetition is counted.
const DEPTH: usize = 50;
const COUNT: usize = 100;

/// The pattern, and how many groups it has.
pub fn node(text: &str) -> Result<(Node, usize), String> {
    let mut reader = Reader { chars: text.chars().collect(), at: 0, groups: 0, depth: 0 };
    let node = reader.either()?;
    if reader.peek().is_some() {
        return Err(reader.wrong("a ) without its ("));
    }
    Ok((node, reader.groups))
}

struct Reader {
    chars: Vec<char>,
    at: usize,
    groups: usize,
    depth: usize,
}

impl Reader {
    fn peek(&self) -> Option<char> {
        self.chars.get(self.at).copied()
    }

    fn take(&mut self, c: char) -> bool {
        let there = self.peek() == Some(c);
        self.at += usize::from(there);
        there
    }

    fn next(&mut self, due: &str) -> Result<char, String> {
        let c = self.peek().ok_or_else(|| self.wrong(&format!("the pattern ends where {due} is due")))?;
        self.at += 1;
        Ok(c)
    }

    fn wrong(&self, what: &str) -> String {
        format!("character {} of the pattern: {what}", self.at + 1)
    }

    /// The error at the character before.
    fn wrong_before<T>(&mut self, what: &str) -> Result<T, String> {
        self.at -= 1;
        Err(self.wrong(what))
    }

    fn either(&mut self) -> Result<Node, String> {
        let mut ways = vec![self.row()?];
        while self.take('|') {
            ways.push(self.row()?);
        }
        Ok(if ways.len() > 1 { Either(ways) } else { ways.swap_remove(0) })
    }

    fn row(&mut self) -> Result<Node, String> {
        let mut parts = vec![];
        while self.peek().is_some_and(|c| c != '|' && c != ')') {
            parts.push(self.repeated()?);
        }
        Ok(Row(parts))
    }

    fn repeated(&mut self) -> Result<Node, String> {
        let of = self.part()?;
        let sign = self.at;
        let Some((least, most)) = self.count()? else {
            return Ok(of);
        };
        let greedy = !self.take('?');
        if matches!(of, Begin | End) {
            self.at = sign;
            return Err(self.wrong("nothing that can be repeated stands before this"));
        }
        if let Some(c @ ('*' | '+' | '?' | '{')) = self.peek() {
            return Err(self.wrong(&format!("{c} repeats a repetition; put that in (?: )")));
        }
        Ok(Repeat { of: Box::new(of), least, most, greedy })
    }

    /// How often, where that stands next.
    fn count(&mut self) -> Result<Option<(usize, Option<usize>)>, String> {
        let count = match self.peek() {
            Some('*') => (0, None),
            Some('+') => (1, None),
            Some('?') => (0, Some(1)),
            Some('{') => return self.counted().map(Some),
            _ => return Ok(None),
        };
        self.at += 1;
        Ok(Some(count))
    }

    /// `{2}`, `{2,}` or `{2,4}`.
    fn counted(&mut self) -> Result<(usize, Option<usize>), String> {
        let open = self.at;
        self.at += 1;
        let least = self.number();
        let comma = self.take(',');
        let most = if comma { self.number() } else { least };
        match (least, most) {
            (Some(least), Some(most)) if least <= most && most <= COUNT && self.take('}') => Ok((least, Some(most))),
            (Some(least), None) if comma && least <= COUNT && self.take('}') => Ok((least, None)),
            _ => {
                self.at = open;
                Err(self.wrong(&format!("{{2}}, {{2,}} or {{2,4}} is due, with numbers up to {COUNT}; the sign itself is \\{{")))
            }
        }
    }

    /// The number that stands next, if one does.
    fn number(&mut self) -> Option<usize> {
        let from = self.at;
        while self.peek().is_some_and(|c| c.is_ascii_digit()) {
            self.at += 1;
        }
        let digits: String = self.chars[from..self.at].iter().collect();
        if digits.is_empty() { None } else { Some(digits.parse().unwrap_or(usize::MAX)) }
    }

    fn part(&mut self) -> Result<Node, String> {
        match self.next("a part")? {
            '.' => Ok(Set::node(true, vec![Item::Range('\n', '\n')])),
            '^' => Ok(Begin),
            '$' => Ok(End),
            '(' => self.group(),
            '[' => self.class(),
            '\\' => Ok(Set::node(false, vec![self.escaped()?])),
            '*' | '+' | '?' | '{' => self.wrong_before("nothing that can be repeated stands before this"),
            c @ (']' | '}') => self.wrong_before(&format!("a {c} alone; the sign itself is \\{c}")),
            c => Ok(Set::node(false, vec![Item::Range(c, c)])),
        }
    }

    fn group(&mut self) -> Result<Node, String> {
        let open = self.at - 1;
        let counted = !self.take('?');
        if !counted && !self.take(':') {
            return Err(self.wrong("behind (? only : is known"));
        }
        self.groups += usize::from(counted);
        let first = counted && self.groups == 1;
        self.depth += 1;
        if self.depth > DEPTH {
            return Err(self.wrong(&format!("more than {DEPTH} brackets in one another")));
        }
        let node = self.either()?;
        self.depth -= 1;
        if !self.take(')') {
            self.at = open;
            return Err(self.wrong("a ( without its )"));
        }
        Ok(if first { Taken(Box::new(node)) } else { node })
    }

    fn escaped(&mut self) -> Result<Item, String> {
        match self.next("a sign behind \\")? {
            c @ ('d' | 'D') => Ok(Item::Digit(c == 'd')),
            c @ ('w' | 'W') => Ok(Item::Word(c == 'w')),
            c @ ('s' | 'S') => Ok(Item::Blank(c == 's')),
            't' => Ok(Item::Range('\t', '\t')),
            'n' => Ok(Item::Range('\n', '\n')),
            'r' => Ok(Item::Range('\r', '\r')),
            c if c.is_alphanumeric() => self.wrong_before(&format!("\\{c} is not known")),
            c => Ok(Item::Range(c, c)),
        }
    }

    fn class(&mut self) -> Result<Node, String> {
        let open = self.at - 1;
        let negated = self.take('^');
        let mut items = vec![];
        while !self.take(']') {
            if self.peek().is_none() {
                self.at = open;
                return Err(self.wrong("a [ without its ]"));
            }
            items.push(self.item()?);
        }
        if items.is_empty() {
            return self.wrong_before("a class of no character; the sign itself is \\]");
        }
        Ok(Set::node(negated, items))
    }

    /// A character of a class, or a range of them. A - at the beginning or the end is the sign itself.
    fn item(&mut self) -> Result<Item, String> {
        let from = self.sign()?;
        let range = self.peek() == Some('-') && self.chars.get(self.at + 1).is_some_and(|c| *c != ']');
        if !range {
            return Ok(from);
        }
        self.at += 1;
        match (from, self.sign()?) {
            (Item::Range(lo, _), Item::Range(hi, _)) if lo <= hi => Ok(Item::Range(lo, hi)),
            (Item::Range(..), Item::Range(..)) => self.wrong_before("the range goes down"),
            _ => self.wrong_before("a range goes from one character to another"),
        }
    }

    fn sign(&mut self) -> Result<Item, String> {
        match self.next("]")? {
            '\\' => self.escaped(),
            '[' => self.wrong_before("a [ in a class is written \\["),
            c => Ok(Item::Range(c, c)),
        }
    }
}
