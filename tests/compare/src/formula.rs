//! Formulas in prefix form, and how large they are under the sign each token is used in.
use crate::fault::Fault;
use crate::log::Field;

#[derive(Clone, Copy)]
pub enum Token {
    Range { field: Field, station: usize, lo: u16, hi: u16 },
    /// Nothing is on the way from one station to another.
    Clear { sender: usize, receiver: usize },
    Not,
    And,
    Or,
    Possibly,
    Always,
}

use Token::*;

/// The tokens that are left of a formula, which has one token or more.
pub struct Tokens<'a>(pub &'a [Token]);

impl Tokens<'_> {
    pub fn take(&mut self) -> Token {
        let token = self.0[0];
        self.0 = &self.0[1..];
        token
    }
}

fn range(field: Field, operands: &[u8], stations: usize) -> Result<Token, Fault> {
    let (ends, not_there) = match field {
        Field::Value => (Fault::FormulaEnds, Fault::FormulaStation),
        Field::Panel => (Fault::PanelEnds, Fault::PanelStation),
    };
    let &[station, a, b, c, d] = operands else { return Err(ends) };
    let (station, lo, hi) = (station as usize, u16::from_be_bytes([a, b]), u16::from_be_bytes([c, d]));
    if station >= stations {
        return Err(not_there);
    }
    Ok(Range { field, station, lo, hi })
}

fn clear(operands: &[u8], stations: usize) -> Result<Token, Fault> {
    let &[sender, receiver] = operands else { return Err(Fault::FormulaEnds) };
    let (sender, receiver) = (sender as usize, receiver as usize);
    if sender.max(receiver) >= stations {
        return Err(Fault::FormulaStation);
    }
    Ok(Clear { sender, receiver })
}

/// Whether a number is in a range. Where lo is above hi it goes through zero: from lo up, and up to hi.
pub fn within(lo: u16, hi: u16, v: u16) -> bool {
    if lo <= hi {
        return lo <= v && v <= hi;
    }
    lo <= v || v <= hi
}

/// What a station that is rebooting reports as its value. A panel of this number is one as any other.
pub const SILENT: u16 = 0xFFFF;

/// What the test of one value or panel says.
#[derive(Clone, Copy, PartialEq)]
pub enum Said {
    Inside,
    Outside,
    Silent,
}

/// The test of one value or panel: a silent value is neither inside a range nor outside it.
pub fn tested(field: Field, lo: u16, hi: u16, v: u16) -> Said {
    if field == Field::Value && v == SILENT {
        return Said::Silent;
    }
    if within(lo, hi, v) { Said::Inside } else { Said::Outside }
}

/// The tokens of exactly one formula.
pub fn parse(mut q: &[u8], stations: usize) -> Result<Vec<Token>, Fault> {
    let (mut tokens, mut missing) = (Vec::with_capacity(32), 1);
    while missing > 0 {
        let (&byte, rest) = q.split_first().ok_or(Fault::FormulaEnds)?;
        let bytes = match byte {
            1 | 8 => 5,
            7 => 2,
            _ => 0,
        };
        let (operands, after) = rest.split_at(rest.len().min(bytes));
        let (token, parts) = match byte {
            1 => (range(Field::Value, operands, stations)?, 0),
            2 => (Not, 1),
            3 => (And, 2),
            4 => (Or, 2),
            5 => (Possibly, 1),
            6 => (Always, 1),
            7 => (clear(operands, stations)?, 0),
            8 => (range(Field::Panel, operands, stations)?, 0),
            _ => return Err(Fault::UnknownToken),
        };
        tokens.push(token);
        missing = missing - 1 + parts;
        q = after;
    }
    if q.is_empty() { Ok(tokens) } else { Err(Fault::BytesAfterFormula) }
}

/// How large a formula is as true or as false: width and bar count, the largest bar count at any of its tokens, structures held, and
/// the products of both widths, added up over the tokens joined as "and".
#[derive(Clone, Copy)]
pub struct Size {
    pub width: usize,
    pub bars: usize,
    pub most: usize,
    pub held: usize,
    pub products: usize,
}

/// That of an atom: a range, of either field, or a token 07.
const ONE: Size = Size { width: 1, bars: 0, most: 0, held: 1, products: 0 };

/// Two operands joined to this width and bar count.
fn joined(l: Size, r: Size, width: usize, bars: usize) -> Size {
    let held = l.held.max(l.width + r.held).max(l.width + r.width + width);
    Size { width, bars, most: bars.max(l.most).max(r.most), held, products: l.products + r.products }
}

/// One operand under possibly or always.
fn lifted(p: Size, width: usize, bars: usize) -> Size {
    Size { width, bars, most: bars.max(p.most), held: p.held.max(p.width + width), ..p }
}

/// The size as true or as false, width and bar count at most 16 at every token.
pub fn size(f: &mut Tokens, sign: bool) -> Result<Size, Fault> {
    let s = match (f.take(), sign) {
        (Range { .. } | Clear { .. }, _) => ONE,
        (Not, _) => size(f, !sign)?,
        (And, true) | (Or, false) => {
            let (l, r) = (size(f, sign)?, size(f, sign)?);
            let both = joined(l, r, l.width * r.width, l.bars + r.bars);
            Size { products: both.products + l.width * r.width, ..both }
        }
        (And, false) | (Or, true) => {
            let (l, r) = (size(f, sign)?, size(f, sign)?);
            joined(l, r, l.width + r.width, l.bars.max(r.bars))
        }
        (Possibly, true) | (Always, false) => {
            let p = size(f, sign)?;
            lifted(p, p.width, 0)
        }
        (Possibly, false) | (Always, true) => {
            let p = size(f, !sign)?;
            lifted(p, 1, p.width)
        }
    };
    if s.width > 16 {
        return Err(Fault::WidthOver16);
    }
    if s.bars > 16 {
        return Err(Fault::BarsOver16);
    }
    Ok(s)
}

/// An atom of a formula, the sign that it is worked out under, and which of the signs "not", "and", "or", "possibly" and "always" it stands
/// below.
pub struct Placed {
    pub atom: Token,
    pub sign: bool,
    pub under: [bool; 5],
}

/// The same as words.
pub const UNDER: [&str; 5] = ["under not", "under and", "under or", "under possibly", "under always"];

/// The atoms of a formula that stands below these signs.
fn place(f: &mut Tokens, sign: bool, mut under: [bool; 5], out: &mut Vec<Placed>) {
    let token = f.take();
    let (at, operands, sign) = match token {
        Range { .. } | Clear { .. } => return out.push(Placed { atom: token, sign, under }),
        Not => (0, 1, !sign),
        And => (1, 2, sign),
        Or => (2, 2, sign),
        Possibly => (3, 1, true),
        Always => (4, 1, false),
    };
    under[at] = true;
    (0..operands).for_each(|_| place(f, sign, under, out));
}

/// The atoms of a question, in their order.
pub fn placed(f: &[Token]) -> Vec<Placed> {
    let mut out = vec![];
    place(&mut Tokens(f), true, [false; 5], &mut out);
    out
}

/// How many atoms there are, and how many of them are tokens 08.
pub fn atoms(f: &[Token]) -> [usize; 2] {
    let panels = f.iter().filter(|t| matches!(t, Range { field: Field::Panel, .. })).count();
    [f.iter().filter(|t| matches!(t, Range { .. } | Clear { .. })).count(), panels]
}

/// Every 07 is worked out as true. The fault of one that would be worked out as false goes by the token above it.
fn workable(f: &mut Tokens, sign: bool, fault: Fault) -> Result<(), Fault> {
    match f.take() {
        Range { .. } => Ok(()),
        Clear { .. } => if sign { Ok(()) } else { Err(fault) },
        Not => workable(f, !sign, Fault::ClearUnderNot),
        And | Or => {
            workable(f, sign, Fault::ClearJoined)?;
            workable(f, sign, Fault::ClearJoined)
        }
        Possibly => workable(f, true, fault),
        Always => workable(f, false, Fault::ClearUnderAlways),
    }
}

/// The limits of tokens, atoms, width and bars, and then the signs of tokens 07.
pub fn fits(f: &[Token]) -> Result<(), Fault> {
    if f.len() > 32 {
        return Err(Fault::TokensOver32);
    }
    let [all, panels] = atoms(f);
    if all > 12 {
        return Err(if all - panels > 12 { Fault::AtomsOver12 } else { Fault::PanelsOver12 });
    }
    size(&mut Tokens(f), true)?;
    workable(&mut Tokens(f), true, Fault::ClearJoined)
}
