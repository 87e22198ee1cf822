//! Truth and falsity by a plain listing of every consistent cut.
use crate::formula::{Said, Token, Tokens};
use crate::log::{contained, Cut, Field, Log};

/// How many cuts there are, consistent or not.
pub fn count(log: &Log) -> usize {
    log.history.iter().map(Vec::len).product()
}

/// All cuts, consistent or not, in ascending order.
pub fn all(log: &Log) -> Vec<Cut> {
    let (n, mut out, mut c) = (log.stations(), vec![[0; 8]], [0u8; 8]);
    while let Some(j) = (0..n).rev().find(|&j| (c[j] as usize) + 1 < log.history[j].len()) {
        c[j] += 1;
        c[j + 1..].fill(0);
        out.push(c);
    }
    out
}

/// All consistent cuts, in ascending order.
pub fn consistent(log: &Log) -> Vec<Cut> {
    let mut out = all(log);
    out.retain(|c| log.cut(&c[..log.stations()]).is_ok());
    out
}

/// Whether an atom is true at a cut, if FFFF is a number as any other.
fn plain(log: &Log, atom: Token, c: &Cut) -> bool {
    match atom {
        Token::Range { field, station, lo, hi } => {
            let last = log.history[station][c[station] as usize].field(field);
            if lo > hi { !(hi + 1..lo).contains(&last) } else { (lo..=hi).contains(&last) }
        }
        Token::Clear { sender, receiver } => {
            let received = |k: u8| 0 < k && k <= c[receiver];
            let mut between = log.messages.iter().filter(|m| (m.sender, m.receiver) == (sender, receiver));
            between.all(|m| c[sender] < m.sent || received(m.received))
        }
        _ => unreachable!("no atom"),
    }
}

/// What the test of an atom says at a cut. That of a token 07 says outside where it is not true.
fn said(log: &Log, atom: Token, c: &Cut) -> Said {
    match atom {
        Token::Range { field: Field::Value, station, .. } if log.history[station][c[station] as usize].value == u16::MAX => Said::Silent,
        _ if plain(log, atom, c) => Said::Inside,
        _ => Said::Outside,
    }
}

fn not(a: Vec<bool>) -> Vec<bool> {
    a.into_iter().map(|a| !a).collect()
}

fn both(a: Vec<bool>, b: Vec<bool>) -> Vec<bool> {
    a.into_iter().zip(b).map(|(a, b)| a && b).collect()
}

fn either(a: Vec<bool>, b: Vec<bool>) -> Vec<bool> {
    a.into_iter().zip(b).map(|(a, b)| a || b).collect()
}

/// Whether it is so at some cut that contains each of the cuts.
fn above(cuts: &[Cut], a: Vec<bool>) -> Vec<bool> {
    (0..cuts.len()).map(|i| (i..cuts.len()).any(|k| a[k] && contained(&cuts[i], &cuts[k]))).collect()
}

/// Whether a formula is true at each of the cuts.
pub fn truth(log: &Log, cuts: &[Cut], f: &mut Tokens) -> Vec<bool> {
    match f.take() {
        Token::Not => falsity(log, cuts, f),
        Token::And => both(truth(log, cuts, f), truth(log, cuts, f)),
        Token::Or => either(truth(log, cuts, f), truth(log, cuts, f)),
        Token::Possibly => above(cuts, truth(log, cuts, f)),
        Token::Always => not(above(cuts, falsity(log, cuts, f))),
        atom => cuts.iter().map(|c| said(log, atom, c) == Said::Inside).collect(),
    }
}

/// Whether it is false at each of them.
pub fn falsity(log: &Log, cuts: &[Cut], f: &mut Tokens) -> Vec<bool> {
    match f.take() {
        Token::Not => truth(log, cuts, f),
        Token::And => either(falsity(log, cuts, f), falsity(log, cuts, f)),
        Token::Or => both(falsity(log, cuts, f), falsity(log, cuts, f)),
        Token::Possibly => not(above(cuts, truth(log, cuts, f))),
        Token::Always => above(cuts, falsity(log, cuts, f)),
        atom => cuts.iter().map(|c| said(log, atom, c) == Said::Outside).collect(),
    }
}

/// Whether it is true at each of them if no station is ever silent: FFFF is a number as any other, and what is not true is false.
pub fn two_valued(log: &Log, cuts: &[Cut], f: &mut Tokens) -> Vec<bool> {
    match f.take() {
        Token::Not => not(two_valued(log, cuts, f)),
        Token::And => both(two_valued(log, cuts, f), two_valued(log, cuts, f)),
        Token::Or => either(two_valued(log, cuts, f), two_valued(log, cuts, f)),
        Token::Possibly => above(cuts, two_valued(log, cuts, f)),
        Token::Always => not(above(cuts, not(two_valued(log, cuts, f)))),
        atom => cuts.iter().map(|c| plain(log, atom, c)).collect(),
    }
}

/// The cuts at which a formula is true that are contained in no other such.
pub fn maximal(cuts: &[Cut], truth: &[bool]) -> Vec<Cut> {
    let inner = |i: usize| (i + 1..cuts.len()).any(|k| truth[k] && contained(&cuts[i], &cuts[k]));
    (0..cuts.len()).filter(|&i| truth[i] && !inner(i)).map(|i| cuts[i]).collect()
}
