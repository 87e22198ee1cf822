//! Questions: as bytes of a frame, and as words.
use crate::names::Names;
use Formula::*;

/// What a range looks at: a station's value (01), or its panel (08).
#[derive(Clone, Copy, Debug, PartialEq)]
pub enum Aspect {
    Value,
    Panel,
}

#[derive(Clone, Debug, PartialEq)]
pub enum Formula {
    Range { aspect: Aspect, station: usize, lo: u16, hi: u16 },
    /// Nothing is on the way (07).
    Clear { from: usize, to: usize },
    Not(Box<Formula>),
    And(Box<Formula>, Box<Formula>),
    Or(Box<Formula>, Box<Formula>),
    Possibly(Box<Formula>),
    Always(Box<Formula>),
}

/// Whether a number is inside a range, which goes through zero where lo is above hi.
pub fn inside(lo: u16, hi: u16, number: u16) -> bool {
    if lo > hi { number >= lo || number <= hi } else { (lo..=hi).contains(&number) }
}

impl Formula {
    /// The formula of a question's bytes, if they are just one.
    pub fn from_bytes(bytes: &[u8]) -> Option<Formula> {
        match taken(bytes)? {
            (formula, []) => Some(formula),
            _ => None,
        }
    }

    pub fn bytes(&self) -> Vec<u8> {
        let join = |token: u8, parts: &[&Formula]| std::iter::once(token).chain(parts.iter().flat_map(|p| p.bytes())).collect();
        match self {
            Range { aspect, station, lo, hi } => {
                let token = if *aspect == Aspect::Value { 1 } else { 8 };
                [&[token, *station as u8], &lo.to_be_bytes()[..], &hi.to_be_bytes()].concat()
            }
            Clear { from, to } => vec![7, *from as u8, *to as u8],
            Not(p) => join(2, &[p]),
            And(p, q) => join(3, &[p, q]),
            Or(p, q) => join(4, &[p, q]),
            Possibly(p) => join(5, &[p]),
            Always(p) => join(6, &[p]),
        }
    }

    /// Whether an "always" stands in it.
    pub fn has_always(&self) -> bool {
        match self {
            Always(_) => true,
            Range { .. } | Clear { .. } => false,
            Not(p) | Possibly(p) => p.has_always(),
            And(p, q) | Or(p, q) => p.has_always() || q.has_always(),
        }
    }

    /// As it is written in a question, with every bracket that is needed to read it one way only.
    pub fn words(&self, names: &Names) -> String {
        match self {
            Range { aspect: Aspect::Value, station, lo, hi } if lo == hi => {
                format!("{} is {}", names.station(*station), names.value(*station, *lo))
            }
            Range { aspect: Aspect::Value, station, lo, hi } => {
                format!("{} in {}..{}", names.station(*station), names.value(*station, *lo), names.value(*station, *hi))
            }
            Range { aspect: Aspect::Panel, station, lo, hi } if lo == hi => format!("{} panel {lo}", names.station(*station)),
            Range { aspect: Aspect::Panel, station, lo, hi } => format!("{} panel {lo}..{hi}", names.station(*station)),
            Clear { from, to } => format!("nothing from {} to {}", names.station(*from), names.station(*to)),
            Not(p) => format!("not {}", p.operand(names)),
            Possibly(p) => format!("possibly {}", p.operand(names)),
            Always(p) => format!("always {}", p.operand(names)),
            And(..) | Or(..) => self.joined(names),
        }
    }

    /// Behind not, possibly and always: in brackets where it is joined.
    fn operand(&self, names: &Names) -> String {
        match self {
            And(..) | Or(..) => format!("({})", self.words(names)),
            _ => self.words(names),
        }
    }

    /// The parts of one row of "and" or of "or". A part that begins with a sign reaches to the end of the row, so it is in brackets but for
    /// the last.
    fn joined(&self, names: &Names) -> String {
        let word = if matches!(self, And(..)) { " and " } else { " or " };
        let parts = self.row();
        let words = parts.iter().enumerate().map(|(i, part)| match part {
            And(..) | Or(..) => format!("({})", part.words(names)),
            Not(_) | Possibly(_) | Always(_) if i + 1 < parts.len() => format!("({})", part.words(names)),
            _ => part.words(names),
        });
        words.collect::<Vec<String>>().join(word)
    }

    /// What is joined from the left by one sign: (a and b) and c is the row a, b, c.
    fn row(&self) -> Vec<&Formula> {
        match self {
            And(p, q) if matches!(**p, And(..)) => [p.row(), vec![q]].concat(),
            Or(p, q) if matches!(**p, Or(..)) => [p.row(), vec![q]].concat(),
            And(p, q) | Or(p, q) => vec![p, q],
            _ => vec![self],
        }
    }
}

/// The formula at the front of the bytes, and the bytes behind it.
fn taken(bytes: &[u8]) -> Option<(Formula, &[u8])> {
    let word = |at: usize| Some(u16::from_be_bytes([*bytes.get(at)?, *bytes.get(at + 1)?]));
    let one = |make: fn(Box<Formula>) -> Formula| taken(&bytes[1..]).map(|(p, rest)| (make(Box::new(p)), rest));
    let two = |make: fn(Box<Formula>, Box<Formula>) -> Formula| {
        let (p, rest) = taken(&bytes[1..])?;
        let (q, rest) = taken(rest)?;
        Some((make(Box::new(p), Box::new(q)), rest))
    };
    match bytes.first()? {
        token @ (1 | 8) => {
            let aspect = if *token == 1 { Aspect::Value } else { Aspect::Panel };
            let range = Range { aspect, station: *bytes.get(1)? as usize, lo: word(2)?, hi: word(4)? };
            Some((range, &bytes[6..]))
        }
        7 => Some((Clear { from: *bytes.get(1)? as usize, to: *bytes.get(2)? as usize }, &bytes[3..])),
        2 => one(Not),
        3 => two(And),
        4 => two(Or),
        5 => one(Possibly),
        6 => one(Always),
        _ => None,
    }
}
