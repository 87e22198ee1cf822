//! The basis, with rows of fixed size worked on in place.
use crate::formula::{tested, Said, Token, Tokens};
use crate::log::{contained, Cut, Event, Log, Message, OPERATIONS};

/// A row that is none has 255 at station 0.
const NONE: Cut = [255; 8];

fn join(a: &mut Cut, b: &Cut) {
    for (x, y) in a.iter_mut().zip(b) {
        *x = (*x).max(*y);
    }
}

/// The greatest cut of a set that is not empty.
fn greatest(rows: &[Cut]) -> Cut {
    let mut out = [0; 8];
    rows.iter().filter(|r| r[0] != 255).for_each(|r| join(&mut out, r));
    out
}

/// Row 0 is the least cut; then a row for each event, station by station.
pub struct Structure {
    rows: Vec<Cut>,
    bars: Vec<Cut>,
}

impl Structure {
    fn dropped(&self) -> bool {
        let empty = self.rows[0][0] == 255;
        empty || !self.bars.is_empty() && {
            let top = greatest(&self.rows);
            self.bars.iter().any(|b| contained(&top, b))
        }
    }
}

/// The most that was met: rounds of a start, structures of a basis, structures that stood at a time, bars of a structure in a basis,
/// and of the right one of a pair, and passes that raised a start of a token 07.
#[derive(Default)]
pub struct Most {
    pub rounds: u32,
    pub structures: usize,
    pub standing: usize,
    pub bars: usize,
    pub right: usize,
    pub passes: usize,
}

pub struct Worker<'a> {
    log: &'a Log,
    /// Where each station's rows begin, less one.
    offs: [usize; 8],
    /// The empty cut and each event's clock.
    starts: Vec<Cut>,
    /// Structures of left operands, while the right ones are worked out.
    waiting: usize,
    pub rounds: u32,
    pub most: Most,
    /// Starts of tokens 07 that came to a cut, and to none, after no pass that raised them, one, or more.
    pub raised: [[usize; 3]; 2],
}

impl<'a> Worker<'a> {
    pub fn new(log: &'a Log) -> Self {
        let (mut offs, mut starts) = ([0; 8], Vec::with_capacity(log.events + 1));
        starts.push([0; 8]);
        for (j, h) in log.history.iter().enumerate() {
            offs[j] = starts.len() - 1;
            starts.extend(h[1..].iter().map(|e| e.clock));
        }
        Worker { log, offs, starts, waiting: 0, rounds: 0, most: Most::default(), raised: [[0; 3]; 2] }
    }

    /// The least cut of a set that contains c, or none. Every row contains row 0, which stands for a count of 0.
    fn raise(&self, rows: &[Cut], c: &Cut) -> Cut {
        let mut out = [0; 8];
        for j in 0..8 {
            let row = if c[j] == 0 { 0 } else { self.offs[j] + c[j] as usize };
            join(&mut out, &rows[row]);
        }
        out
    }

    /// The cuts at which the station's last event is one of those wanted.
    fn range(&self, station: usize, wanted: impl Fn(&Event) -> bool) -> Structure {
        let h = &self.log.history[station];
        let mut next = [None; OPERATIONS.events + 2];
        for k in (0..h.len()).rev() {
            next[k] = if wanted(&h[k]) { Some(&h[k].clock) } else { next[k + 1] };
        }
        let raised = |c: &Cut| {
            let mut d = *c;
            join(&mut d, next[c[station] as usize].unwrap_or(&NONE));
            d
        };
        Structure { rows: self.starts.iter().map(raised).collect(), bars: vec![] }
    }

    /// One pass over some messages: each that is due is received, with all that its receiving event has seen. None where one never came.
    fn receive(&self, messages: &[Message], mut c: Cut) -> Cut {
        for m in messages.iter().filter(|m| m.received > 0) {
            if m.sent <= c[m.sender] && c[m.receiver] < m.received {
                join(&mut c, &self.log.history[m.receiver][m.received as usize].clock);
            }
        }
        if messages.iter().any(|m| m.received == 0 && m.sent <= c[m.sender]) { NONE } else { c }
    }

    /// Passes are made until nothing is due: what an event has seen may have been sent since.
    fn clear(&mut self, sender: usize, receiver: usize) -> Structure {
        let of_pair = |m: &&Message| (m.sender, m.receiver) == (sender, receiver);
        let (messages, mut rows) = (self.log.messages.iter().filter(of_pair).copied().collect::<Vec<_>>(), self.starts.clone());
        for row in &mut rows {
            let mut passes = 0;
            loop {
                let c = self.receive(&messages, *row);
                let last = c == *row || c == NONE;
                *row = c;
                if last {
                    break;
                }
                passes += 1;
            }
            self.raised[(*row == NONE) as usize][passes.min(2)] += 1;
            self.most.passes = self.most.passes.max(passes);
        }
        Structure { rows, bars: vec![] }
    }

    /// One start: what it comes to, and its rounds.
    fn start(&self, left: &[Cut], right: &[Cut], mut c: Cut) -> (Cut, u32) {
        for rounds in 1.. {
            let d = self.raise(left, &c);
            if d[0] == 255 {
                return (NONE, rounds);
            }
            let d = self.raise(right, &d);
            if d[0] == 255 || d == c {
                return (d, rounds);
            }
            c = d;
        }
        unreachable!()
    }

    fn pair(&mut self, left: &Structure, right: &Structure) -> Structure {
        let mut rows = Vec::with_capacity(self.starts.len());
        for i in 0..self.starts.len() {
            let (row, rounds) = self.start(&left.rows, &right.rows, self.starts[i]);
            rows.push(row);
            self.rounds += rounds;
            self.most.rounds = self.most.rounds.max(rounds);
        }
        self.most.right = self.most.right.max(right.bars.len());
        Structure { rows, bars: left.bars.iter().chain(&right.bars).copied().collect() }
    }

    /// The structures of both operands.
    fn operands(&mut self, f: &mut Tokens, sign: bool) -> (Vec<Structure>, Vec<Structure>) {
        let left = self.basis(f, sign);
        self.waiting += left.len();
        let right = self.basis(f, sign);
        self.waiting -= left.len();
        (left, right)
    }

    /// So many structures stand now, beside those that wait.
    fn stand(&mut self, structures: usize) {
        self.most.standing = self.most.standing.max(self.waiting + structures);
    }

    pub fn basis(&mut self, f: &mut Tokens, sign: bool) -> Vec<Structure> {
        let mut out = Vec::new();
        match (f.take(), sign) {
            (Token::Range { field, station, lo, hi }, _) => {
                let wanted = if sign { Said::Inside } else { Said::Outside };
                out.push(self.range(station, |e| tested(field, lo, hi, e.field(field)) == wanted));
            }
            (Token::Clear { sender, receiver }, true) => out.push(self.clear(sender, receiver)),
            (Token::Clear { .. }, false) => unreachable!("refused"),
            (Token::Not, _) => out = self.basis(f, !sign),
            (Token::And, true) | (Token::Or, false) => {
                let (left, right) = self.operands(f, sign);
                for l in &left {
                    for r in &right {
                        out.push(self.pair(l, r));
                    }
                }
                self.stand(left.len() + right.len() + out.len());
            }
            (Token::And, false) | (Token::Or, true) => {
                let (mut left, mut right) = self.operands(f, sign);
                out.append(&mut left);
                out.append(&mut right);
            }
            (Token::Possibly, true) | (Token::Always, false) => {
                out = self.basis(f, sign);
                out.iter_mut().for_each(|s| self.lower(s));
            }
            (Token::Possibly, false) | (Token::Always, true) => {
                let bars: Vec<Cut> = self.basis(f, !sign).iter().map(|s| greatest(&s.rows)).collect();
                self.stand(bars.len() + 1);
                out.push(Structure { rows: self.starts.clone(), bars });
            }
        }
        self.stand(out.len());
        out.retain(|s| !s.dropped());
        self.most.structures = self.most.structures.max(out.len());
        self.most.bars = out.iter().map(|s| s.bars.len()).fold(self.most.bars, usize::max);
        out
    }

    /// All cuts contained in the greatest, no bars.
    fn lower(&self, s: &mut Structure) {
        let top = greatest(&s.rows);
        for (row, start) in s.rows.iter_mut().zip(&self.starts) {
            *row = if contained(start, &top) { *start } else { NONE };
        }
        s.bars.clear();
    }

    pub fn belongs(&self, s: &Structure, c: &Cut) -> bool {
        self.raise(&s.rows, c) == *c && !s.bars.iter().any(|b| contained(c, b))
    }

    /// The maximal ones of the greatest cuts, in order.
    pub fn tops(&self, basis: &[Structure]) -> Vec<Cut> {
        let mut all: Vec<Cut> = basis.iter().map(|s| greatest(&s.rows)).collect();
        all.sort_unstable();
        all.dedup();
        (0..all.len()).filter(|&i| !(0..all.len()).any(|k| k != i && contained(&all[i], &all[k]))).map(|i| all[i]).collect()
    }
}
