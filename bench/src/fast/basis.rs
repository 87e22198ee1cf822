//! The basis of a formula, read from its bytes. Structures stand on one stack; the memory of those that are done with is used again.
use super::cut::{Cut, NONE};
use super::read::{word, Log};
use super::sets::{Range, Sets, Structure};

pub struct Finder<'a> {
    sets: Sets<'a>,
    /// The structures that stand, those of the last operand last.
    standing: Vec<Structure>,
    spare: Vec<Structure>,
}

impl<'a> Finder<'a> {
    pub fn new(log: &'a Log) -> Self {
        Finder { sets: Sets::new(log), standing: Vec::with_capacity(64), spare: Vec::with_capacity(64) }
    }

    fn fresh(&mut self, range: Option<Range>) -> Structure {
        let rows = self.sets.log.starts.len();
        let mut s = self.spare.pop().unwrap_or_else(|| Structure { rows: vec![0; rows], ..Structure::default() });
        (s.range, s.laid) = (range, range.is_none());
        s.bars.clear();
        s
    }

    /// Lets a structure stand whose set is not empty, unless it is dropped by a bar.
    fn stand(&mut self, mut s: Structure) {
        let dropped = self.sets.barred(&mut s);
        if dropped { &mut self.spare } else { &mut self.standing }.push(s);
    }

    fn pair(&mut self, l: usize, r: usize) {
        let mut s = self.fresh(None);
        let (left, right) = (&self.standing[l], &self.standing[r]);
        self.sets.intersect(left, right, &mut s.rows);
        if s.rows[0] == NONE {
            return self.spare.push(s);
        }
        s.bars.extend(left.bars.iter().chain(&right.bars));
        self.stand(s);
    }

    /// Takes away those that stand from an index on to another.
    fn clear(&mut self, from: usize, to: usize) {
        self.spare.extend(self.standing.drain(from..to));
    }

    /// Puts the basis of a formula after those that stand; hands back the bytes after the formula.
    fn basis<'f>(&mut self, f: &'f [u8], sign: bool) -> &'f [u8] {
        let (from, rest) = (self.standing.len(), &f[1..]);
        match (f[0], sign) {
            (1 | 8, _) => {
                let range = Range::new(f[0] == 8, f[1] as usize, word(f[2], f[3]), word(f[4], f[5]), sign);
                if range.numbers(self.sets.log).iter().any(|&v| range.has(v)) {
                    let s = self.fresh(Some(range));
                    self.standing.push(s);
                }
                &f[6..]
            }
            (7, _) => {
                let mut s = self.fresh(None);
                self.sets.lay_clear(f[1] as usize, f[2] as usize, &mut s.rows);
                if s.rows[0] == NONE { &mut self.spare } else { &mut self.standing }.push(s);
                &f[3..]
            }
            (2, _) => self.basis(rest, !sign),
            (3, true) | (4, false) => {
                let rest = self.basis(rest, sign);
                let middle = self.standing.len();
                let rest = self.basis(rest, sign);
                let to = self.standing.len();
                for l in from..middle {
                    self.sets.lay(&mut self.standing[l]);
                    (middle..to).for_each(|r| self.pair(l, r));
                }
                self.clear(from, to);
                rest
            }
            (3, false) | (4, true) => {
                let rest = self.basis(rest, sign);
                self.basis(rest, sign)
            }
            (5, true) | (6, false) => {
                let rest = self.basis(rest, sign);
                self.standing[from..].iter_mut().for_each(|s| self.sets.lower(s));
                rest
            }
            _ => {
                let rest = self.basis(rest, !sign);
                let mut all = self.fresh(Some(Range::ALL));
                all.bars.extend(self.standing[from..].iter_mut().map(|s| self.sets.greatest(s)));
                self.clear(from, self.standing.len());
                self.stand(all);
                rest
            }
        }
    }

    /// Whether a question is true at the empty cut, the greatest cuts of its basis, and the rounds.
    pub fn answer(&mut self, q: usize) -> (bool, Vec<Cut>, u32) {
        self.sets.rounds = 0;
        self.basis(self.sets.log.formula(q), true);
        let greatest = self.standing.iter_mut().map(|s| self.sets.greatest(s)).collect();
        // A bar contains the empty cut.
        let start = self.standing.iter().any(|s| s.rows[0] == 0 && s.bars.is_empty());
        self.clear(0, self.standing.len());
        (start, greatest, self.sets.rounds)
    }
}
