//! Patterns for texts: a small part of the regular expressions that other tools know.
//!
//! | written | stands for |
//! |---|---|
//! | `c` | the character itself; each of `. * + ? ( ) [ ] { } \| ^ $ \` only with `\` before it, other signs with it or without |
//! | `.` | any character but the end of a line |
//! | `\d` `\w` `\s` | 0 to 9; a letter, 0 to 9 or `_`; a blank of any kind |
//! | `\D` `\W` `\S` | any character but these |
//! | `\t` `\n` `\r` | tabulator, end of a line, carriage return |
//! | `[a-z_]` `[^a-z_]` | one of these characters; any other |
//! | `^` `$` | the beginning of the text; its end |
//! | `A*` `A+` `A?` `A{2}` `A{2,}` `A{2,4}` | A repeated, as often as possible; with `?` behind it as seldom as possible |
//! | `(A)` `(?:A)` | a group; the same, but not counted as one. The text of the first group is taken |
//! | `A\|B` | A, or else B |
//!
//! Nothing else is known, and what is not known is an error. A pattern is looked for anywhere in the text: the leftmost place at which it
//! fits counts, and there the way that comes first, by alternatives from the left and repetitions as above. A repetition does not go on
//! with a round that takes no character.
mod machine;
mod read;

use machine::{Machine, TooLarge};
use std::rc::Rc;

/// What a pattern is made of.
pub enum Node {
    One(Rc<Set>),
    Begin,
    End,
    /// The first group.
    Taken(Box<Node>),
    Row(Vec<Node>),
    Either(Vec<Node>),
    Repeat { of: Box<Node>, least: usize, most: Option<usize>, greedy: bool },
}

/// Characters that fit.
pub struct Set {
    negated: bool,
    items: Vec<Item>,
}

#[derive(Clone, Copy)]
enum Item {
    Range(char, char),
    /// The characters of this kind, or all others.
    Digit(bool),
    Word(bool),
    Blank(bool),
}

impl Set {
    fn node(negated: bool, items: Vec<Item>) -> Node {
        Node::One(Rc::new(Set { negated, items }))
    }

    pub fn has(&self, c: char) -> bool {
        self.negated != self.items.iter().any(|item| item.has(c))
    }
}

impl Item {
    fn has(self, c: char) -> bool {
        match self {
            Item::Range(lo, hi) => (lo..=hi).contains(&c),
            Item::Digit(these) => these == c.is_ascii_digit(),
            Item::Word(these) => these == (c.is_alphabetic() || c.is_ascii_digit() || c == '_'),
            Item::Blank(these) => these == c.is_whitespace(),
        }
    }
}

pub struct Pattern {
    machine: Machine,
    pub groups: usize,
}

impl Pattern {
    /// The pattern of the text, or what is wrong with it and where.
    pub fn read(text: &str) -> Result<Pattern, String> {
        let (node, groups) = read::node(text)?;
        let machine = Machine::of(&node).map_err(|TooLarge(most)| format!("the pattern comes to more than {most} steps"))?;
        Ok(Pattern { machine, groups })
    }

    /// Where it is found in the text, what its first group took, if that took part.
    pub fn find<'t>(&self, text: &'t str) -> Option<Option<&'t str>> {
        Some(self.machine.find(text)?.and_then(|taken| text.get(taken)))
    }
}
