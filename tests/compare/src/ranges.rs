//! Ranges in accepted questions: which ends were tried with a value or a panel of the station, under either sign. Silence tries none.
use crate::formula::{Placed, Token, SILENT};
use crate::log::{Field, Log};
use crate::tally::signed;

/// Whether lo is above hi, what is looked at, and how such ranges are called. Panels are those of logs with header 11.
const SORTS: [(bool, Field, &str); 3] = [
    (true, Field::Value, "ranges through zero"), (false, Field::Panel, "ranges of panels"),
    (true, Field::Panel, "ranges of panels through zero"),
];

/// One of these is lo, or the last below lo and outside; it is hi, or the first above hi and outside; or none is outside. What comes after
/// 65535 is 0.
const TRIED: [&str; 5] = ["at lo", "below lo", "at hi", "above hi", "of every value"];

/// How often each was met, as false and as true.
type Times = [[usize; 2]; TRIED.len()];

#[derive(Default)]
pub struct Ranges([Times; SORTS.len()]);

impl Ranges {
    /// An atom of an accepted question.
    pub fn meet(&mut self, log: &Log, p: &Placed) {
        let Token::Range { field, station, lo, hi } = p.atom else { return };
        if field == Field::Panel && !log.panels {
            return;
        }
        let has = |v: u16| (field == Field::Panel || v != SILENT) && log.history[station].iter().any(|e| e.field(field) == v);
        let (before, after) = (lo.wrapping_sub(1), hi.wrapping_add(1));
        let some_outside = after != lo;
        let tried = [has(lo), some_outside && has(before), has(hi), some_outside && has(after), !some_outside];
        for ((through, of, _), times) in SORTS.iter().zip(&mut self.0) {
            let met = *through == (lo > hi) && *of == field;
            times.iter_mut().zip(tried).for_each(|(n, tried)| n[p.sign as usize] += (met && tried) as usize);
        }
    }

    /// Each sort of ranges, and its figures.
    pub fn figures(&self) -> impl Iterator<Item = (&str, Vec<(String, usize)>)> {
        let figures = |times: &Times| TRIED.into_iter().zip(*times).flat_map(|(name, n)| signed(name, n)).collect();
        SORTS.iter().zip(&self.0).map(move |((_, _, name), times)| (*name, figures(times)))
    }
}
