//! Silent stations in accepted logs, what was asked about them, and how often another meaning would have been told by the answer.
use crate::formula::{within, Placed, Token, Tokens, SILENT, UNDER};
use crate::listing::{falsity, maximal, truth, two_valued};
use crate::log::{Cut, Event, Field, Log, PROGRAM};
use crate::operations::answer_question;
use crate::tally::{add, named, signed};

/// Logs by what is silent in them. A station that is so throughout has an event, and so has a log in which all are.
const LOGS: [&str; 8] = [
    "none", "none but a value FFFE", "an initial value", "a later value", "a station throughout", "every station throughout",
    "a station and it came back", "a value of header 11",
];

/// Tokens 01 of a station that is ever silent, by their range, as false and as true. "From FFFF" goes through zero.
const RANGES: [&str; 8] = [
    "FFFF..FFFF", "from FFFF", "up to FFFF", "0..FFFF", "from FFFE or up to it", "of every number through zero", "through zero elsewhere",
    "without FFFF",
];

/// Tokens 08 of a station that ever has panel FFFF, by where that is, as false and as true.
const PANELS: [&str; 2] = ["08 with FFFF inside", "08 with FFFF outside"];

/// Listed questions that are neither true nor false at some cut, at the empty one, or at every one; or in which an "always" is true though
/// its operand is nowhere true, or a "possibly" false though its operand is nowhere false.
const NEITHER: [&str; 5] =
    ["at a cut", "at the start", "at every cut", "always true of what is nowhere true", "possibly false of what is nowhere false"];

/// Those whose start, list or truth at a cut are not the same as if FFFF were a number as any other.
const CHANGED: [&str; 5] = ["start now no", "start now yes", "list", "a cut now no", "a cut now yes"];

/// A station's value after so many of its events.
type Reading = fn(&[Event], usize) -> u16;

fn beside(v: u16, silent: bool) -> u16 {
    if silent && v == SILENT { SILENT - 1 } else { v }
}

/// What silence may be taken for, and what for silence.
const WRONG: [(&str, Reading); 6] = [
    ("FFFE at the start", |h, k| beside(h[k].value, k == 0)),
    ("FFFE later", |h, k| beside(h[k].value, k > 0)),
    ("0", |h, k| if h[k].value == SILENT { 0 } else { h[k].value }),
    ("the value before", |h, k| h[..=k].iter().rev().map(|e| e.value).find(|&v| v != SILENT).unwrap_or(SILENT)),
    ("silence for good", |h, k| if h[..k].iter().any(|e| e.value == SILENT) { SILENT } else { h[k].value }),
    ("that of FFFE too", |h, k| if h[k].value == SILENT - 1 { SILENT } else { h[k].value }),
];

fn misread(log: &Log, reading: Reading) -> Log {
    let mut out = log.clone();
    for (wrong, right) in out.history.iter_mut().zip(&log.history) {
        wrong.iter_mut().enumerate().for_each(|(k, e)| e.value = reading(right, k));
    }
    out
}

/// Truth or falsity of a formula at each of some cuts.
type Rule = fn(&Log, &[Cut], &mut Tokens) -> Vec<bool>;

fn silent(e: &Event) -> bool {
    e.value == SILENT
}

/// Whether a station of a log is ever silent.
pub fn any(log: &Log) -> bool {
    log.history.iter().flatten().any(silent)
}

#[derive(Default)]
pub struct Silences {
    logs: [usize; LOGS.len()],
    ranges: [[usize; 2]; RANGES.len()],
    panels: [[usize; 2]; PANELS.len()],
    under: [usize; UNDER.len()],
    neither: [usize; NEITHER.len()],
    changed: [usize; CHANGED.len()],
    told: [usize; WRONG.len()],
}

impl Silences {
    pub fn meet_log(&mut self, log: &Log) {
        let some = |of: &dyn Fn(&[Event]) -> bool| log.history.iter().any(|h| of(h));
        let throughout = |h: &[Event]| h.len() > 1 && h.iter().all(silent);
        let back = |h: &[Event]| h.windows(2).any(|e| silent(&e[0]) && !silent(&e[1]));
        let near = some(&|h| h.iter().any(|e| e.value == SILENT - 1));
        add(&mut self.logs, [
            !any(log), !any(log) && near, some(&|h| silent(&h[0])), some(&|h| h[1..].iter().any(silent)), some(&throughout),
            log.events > 0 && log.history.iter().flatten().all(silent), some(&back), log.panels && any(log),
        ]);
    }

    /// A question, its atoms, and the line that answers it.
    pub fn meet(&mut self, log: &Log, f: &[Token], placed: &[Placed], line: &[u8]) {
        placed.iter().for_each(|p| self.meet_atom(log, p));
        let ever = |station: usize| log.history[station].iter().any(silent);
        let asked = placed.iter().any(|p| matches!(p.atom, Token::Range { field: Field::Value, station, .. } if ever(station)));
        if log.events <= PROGRAM.events && asked {
            add(&mut self.told, WRONG.map(|(_, reading)| answer_question(&misread(log, reading), f) != line));
        }
    }

    fn meet_atom(&mut self, log: &Log, p: &Placed) {
        let Token::Range { field, station, lo, hi } = p.atom else { return };
        if !log.history[station].iter().any(|e| e.field(field) == SILENT) {
            return;
        }
        let reached = within(lo, hi, SILENT);
        if field == Field::Panel {
            return self.panels.iter_mut().zip([reached, !reached]).for_each(|(n, met)| n[p.sign as usize] += met as usize);
        }
        let (end, near) = ([lo, hi].map(|v| v == SILENT), [lo, hi].contains(&(SILENT - 1)));
        let met = [
            end == [true, true], end == [true, false], end == [false, true], (lo, hi) == (0, SILENT), near, lo > hi && lo - hi == 1,
            lo > hi && !end[0], !reached,
        ];
        self.ranges.iter_mut().zip(met).for_each(|(n, met)| n[p.sign as usize] += met as usize);
        add(&mut self.under, p.under);
    }

    /// A question by the listing: the cuts, and whether it is true at each. It is nowhere both true and false. Where no station is silent
    /// it is one of both, and true where it is if FFFF is a number as any other.
    pub fn meet_listed(&mut self, log: &Log, f: &[Token], cuts: &[Cut], yes: &[bool]) {
        let (no, before) = (falsity(log, cuts, &mut Tokens(f)), two_valued(log, cuts, &mut Tokens(f)));
        let neither = |i: usize| !yes[i] && !no[i];
        assert!((0..cuts.len()).all(|i| !(yes[i] && no[i])), "both true and false");
        if !any(log) {
            return assert!(before == yes && !(0..cuts.len()).any(neither), "other than without silence");
        }
        let somewhere = |of: Rule, at: usize| of(log, cuts, &mut Tokens(&f[at..])).contains(&true);
        let lifted = |of: Rule, at: usize| somewhere(of, at) && !somewhere(of, at + 1);
        let always = |at: usize| matches!(f[at], Token::Always) && lifted(truth, at);
        let possibly = |at: usize| matches!(f[at], Token::Possibly) && lifted(falsity, at);
        add(&mut self.neither, [
            (0..cuts.len()).any(neither), neither(0), (0..cuts.len()).all(neither), (0..f.len()).any(always), (0..f.len()).any(possibly),
        ]);
        let turned = |i: usize, now: bool| before[i] != yes[i] && yes[i] == now;
        let some = |now: bool| (0..cuts.len()).any(|i| turned(i, now));
        let listed = maximal(cuts, yes) != maximal(cuts, &before);
        add(&mut self.changed, [turned(0, false), turned(0, true), listed, some(false), some(true)]);
    }

    /// Each sort of what was met, and its figures. The last are of answers that would have been others with another reading.
    pub fn figures(&self) -> [(&'static str, Vec<(String, usize)>); 5] {
        let ranges = RANGES.into_iter().zip(self.ranges).chain(PANELS.into_iter().zip(self.panels));
        let asked = ranges.flat_map(|(name, n)| signed(name, n)).chain(named(&UNDER, &self.under)).collect();
        [
            ("accepted logs, silent", named(&LOGS, &self.logs)),
            ("asked of what is FFFF", asked),
            ("listed questions, neither true nor false", named(&NEITHER, &self.neither)),
            ("listed questions other than with FFFF a number", named(&CHANGED, &self.changed)),
            ("answers that tell silence from", named(&WRONG.map(|(name, _)| name), &self.told)),
        ]
    }
}
