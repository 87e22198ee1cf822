//! Tokens 08 in accepted questions: what they are asked of, what they stand beside and under, and how often another number in the place of
//! the panel would have been told by the answer.
use crate::formula::{atoms, within, Placed, Token, UNDER};
use crate::log::{Field, Log};
use crate::operations::answer_question;
use crate::tally::{add, named, signed};

/// With header 11, or with header 10, where every panel is 0, in the range or outside. Each as false and as true.
const ASKED: [&str; 3] = ["with header 11", "0 inside with header 10", "0 outside with header 10"];

/// Of a station without events, or where the header's panel alone is inside or outside; in one question with a token 01, one of the same
/// station, or a token 07; among 12 atoms.
const MET: [&str; 7] = [
    "before any event", "header's alone inside", "header's alone outside", "beside 01", "beside 01 of its station", "beside 07",
    "among 12 atoms",
];

/// A station's value and panel after so many of its events.
type Reading = fn(&Log, usize, usize) -> [u16; 2];

fn right(log: &Log, station: usize, k: usize) -> [u16; 2] {
    let e = log.history[station][k];
    [e.value, e.panel]
}

/// Both as they would be if all of the header's values came before its panels.
fn apart(log: &Log, station: usize, k: usize) -> [u16; 2] {
    let n = log.stations();
    let number = |i: usize| right(log, i / 2, 0)[i % 2];
    if k == 0 { [number(station), number(n + station)] } else { right(log, station, k) }
}

/// What the panel may be taken for.
const WRONG: [(&str, Reading); 7] = [
    ("the value", |log, j, k| [right(log, j, k)[0]; 2]),
    ("the panel of the event before", |log, j, k| [right(log, j, k)[0], right(log, j, k.saturating_sub(1))[1]]),
    ("the header's panel", |log, j, k| [right(log, j, k)[0], right(log, j, 0)[1]]),
    ("0 before the first event", |log, j, k| [right(log, j, k)[0], if k == 0 { 0 } else { right(log, j, k)[1] }]),
    ("0", |log, j, k| [right(log, j, k)[0], 0]),
    ("a header's numbers with all values first", apart),
    ("a panel before its value", |log, j, k| [right(log, j, k)[1], right(log, j, k)[0]]),
];

/// With header 10 it may be taken for the value.
const OF_10: &str = "the value with header 10";

fn misread(log: &Log, reading: Reading) -> Log {
    let mut out = log.clone();
    for (j, history) in out.history.iter_mut().enumerate() {
        history.iter_mut().enumerate().for_each(|(k, e)| [e.value, e.panel] = reading(log, j, k));
    }
    out
}

#[derive(Default)]
pub struct Fields {
    asked: [[usize; 2]; ASKED.len()],
    met: [usize; MET.len()],
    under: [usize; UNDER.len()],
    told: [usize; WRONG.len()],
    told_of_10: usize,
}

impl Fields {
    /// A question, its atoms, and the line that answers it.
    pub fn meet(&mut self, log: &Log, f: &[Token], placed: &[Placed], line: &[u8]) {
        let [_, panels] = atoms(f);
        if panels == 0 {
            return;
        }
        placed.iter().for_each(|p| self.meet_atom(log, placed, p));
        let tells = |reading: Reading| answer_question(&misread(log, reading), f) != line;
        if log.panels {
            add(&mut self.told, WRONG.map(|(_, reading)| tells(reading)));
        } else {
            self.told_of_10 += tells(WRONG[0].1) as usize;
        }
    }

    /// An atom among all those of a question.
    fn meet_atom(&mut self, log: &Log, all: &[Placed], p: &Placed) {
        let Token::Range { field: Field::Panel, station, lo, hi } = p.atom else { return };
        let inside: Vec<bool> = log.history[station].iter().map(|e| within(lo, hi, e.panel)).collect();
        let (first, later) = (inside[0], &inside[1..]);
        let asked = [log.panels, !log.panels && first, !log.panels && !first];
        self.asked.iter_mut().zip(asked).for_each(|(n, met)| n[p.sign as usize] += met as usize);
        let alone = !later.is_empty() && later.iter().all(|i| *i != first);
        let value_of = |of: usize| all.iter().any(|q| matches!(q.atom, Token::Range { field: Field::Value, station, .. } if station == of));
        let clear = all.iter().any(|q| matches!(q.atom, Token::Clear { .. }));
        add(&mut self.met, [
            log.panels && later.is_empty(), alone && first, alone && !first, (0..log.stations()).any(value_of), value_of(station), clear,
            all.len() == 12,
        ]);
        add(&mut self.under, p.under);
    }

    pub fn figures(&self) -> Vec<(String, usize)> {
        let asked = ASKED.into_iter().zip(self.asked).flat_map(|(name, n)| signed(name, n)).collect();
        [asked, named(&MET, &self.met), named(&UNDER, &self.under)].concat()
    }

    /// What would have been answered otherwise.
    pub fn told(&self) -> Vec<(String, usize)> {
        [named(&WRONG.map(|(name, _)| name), &self.told), named(&[OF_10], &[self.told_of_10])].concat()
    }
}
