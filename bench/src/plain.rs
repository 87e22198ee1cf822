//! The basis in plain Rust: cuts handed on by value, a row an Option, a structure its rows by station.
use compare::formula::{tested, Said, Token, Tokens};
use compare::log::{contained, Cut, Log, Message, OPERATIONS};
use compare::operations::{answer_line, printed_by};

fn join(c: &Cut, d: &Cut) -> Cut {
    std::array::from_fn(|j| c[j].max(d[j]))
}

struct Structure {
    least: Cut,
    rows: Vec<Vec<Option<Cut>>>,
    bars: Vec<Cut>,
}

impl Structure {
    fn raise(&self, c: &Cut) -> Option<Cut> {
        let mut out = self.least;
        for (rows, &k) in self.rows.iter().zip(c) {
            if k > 0 {
                out = join(&out, rows[k as usize - 1].as_ref()?);
            }
        }
        Some(out)
    }

    fn greatest(&self) -> Cut {
        self.rows.iter().flatten().flatten().fold(self.least, |g, r| join(&g, r))
    }
}

struct Plain<'a> {
    log: &'a Log,
    rounds: u32,
}

impl Plain<'_> {
    /// The structure of a rule that raises a cut, unless it is dropped.
    fn build(&mut self, bars: Vec<Cut>, mut raise: impl FnMut(&mut Self, &Cut) -> Option<Cut>) -> Option<Structure> {
        let least = raise(self, &[0; 8]);
        let log = self.log;
        let rows = log.history.iter().map(|h| h[1..].iter().map(|e| raise(self, &e.clock)).collect()).collect();
        let s = Structure { least: least?, rows, bars };
        let top = s.greatest();
        if s.bars.iter().any(|b| contained(&top, b)) { None } else { Some(s) }
    }

    fn start(&mut self, left: &Structure, right: &Structure, mut c: Cut) -> Option<Cut> {
        loop {
            self.rounds += 1;
            let d = right.raise(&left.raise(&c)?)?;
            if d == c {
                return Some(c);
            }
            c = d;
        }
    }

    fn basis(&mut self, f: &mut Tokens, sign: bool) -> Vec<Structure> {
        match (f.take(), sign) {
            (Token::Range { field, station, lo, hi }, _) => {
                let (h, wanted) = (&self.log.history[station], if sign { Said::Inside } else { Said::Outside });
                let next = |c: &Cut| (c[station] as usize..h.len()).find(|&k| tested(field, lo, hi, h[k].field(field)) == wanted);
                self.build(vec![], |_, c| next(c).map(|k| join(c, &h[k].clock))).into_iter().collect()
            }
            (Token::Clear { sender, receiver }, _) => {
                let h = &self.log.history[receiver];
                let of_pair = |m: &&Message| (m.sender, m.receiver) == (sender, receiver);
                let messages: Vec<Message> = self.log.messages.iter().filter(of_pair).copied().collect();
                let due = |m: &Message, c: &Cut| m.sent <= c[sender] && (m.received == 0 || c[receiver] < m.received);
                let clear = |c: &Cut| !messages.iter().any(|m| due(m, c));
                let next = |c: &Cut| h[c[receiver] as usize..].iter().map(|e| join(c, &e.clock)).find(clear);
                self.build(vec![], |_, c| next(c)).into_iter().collect()
            }
            (Token::Not, _) => self.basis(f, !sign),
            (Token::And, true) | (Token::Or, false) => {
                let (left, right) = (self.basis(f, sign), self.basis(f, sign));
                let pairs = left.iter().flat_map(|l| right.iter().map(move |r| (l, r)));
                pairs.filter_map(|(l, r)| self.build([&l.bars[..], &r.bars].concat(), |p, c| p.start(l, r, *c))).collect()
            }
            (Token::And, false) | (Token::Or, true) => {
                let mut both = self.basis(f, sign);
                both.extend(self.basis(f, sign));
                both
            }
            (Token::Possibly, true) | (Token::Always, false) => {
                let tops: Vec<Cut> = self.basis(f, sign).iter().map(Structure::greatest).collect();
                tops.iter().filter_map(|top| self.build(vec![], |_, c| contained(c, top).then_some(*c))).collect()
            }
            (Token::Possibly, false) | (Token::Always, true) => {
                let bars = self.basis(f, !sign).iter().map(Structure::greatest).collect();
                self.build(bars, |_, c| Some(*c)).into_iter().collect()
            }
        }
    }
}

fn answer_question(log: &Log, f: &[Token]) -> Vec<u8> {
    let (mut p, empty) = (Plain { log, rounds: 0 }, [0; 8]);
    let basis = p.basis(&mut Tokens(f), true);
    let start = basis.iter().any(|s| s.raise(&empty) == Some(empty) && s.bars.is_empty());
    let mut tops: Vec<Cut> = basis.iter().map(Structure::greatest).collect();
    tops.sort();
    tops.dedup();
    let maximal: Vec<Cut> = tops.iter().filter(|c| !tops.iter().any(|d| c != &d && contained(c, d))).copied().collect();
    answer_line(start, &maximal, log.stations(), p.rounds)
}

/// The line of a question of an accepted log.
pub fn answer(data: &[u8], q: usize) -> Vec<u8> {
    let log = Log::read(OPERATIONS, data).unwrap();
    answer_question(&log, &log.questions[q])
}

pub fn printed(data: &[u8]) -> Vec<u8> {
    printed_by(data, answer_question)
}
