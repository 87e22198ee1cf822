//! Made-up logs with panels, from those of the other makers: a panel is put behind each value, and some of the tokens 01 become 08.
use crate::draw::Draw;
use crate::ends::Frames;
use crate::log::{OPERATIONS, PROGRAM, STATIONS};
use crate::made::{self, Shape};
use crate::messages;

const HEADER: u8 = 0x10;
const WITH_PANELS: u8 = 0x11;
const EVENT: u8 = 0x20;
const QUESTION: u8 = 0x30;
/// The most bytes of a question that is accepted.
const LONGEST: usize = 93;

/// A number of two bytes: a value, a panel or an end of a range.
type Number = [u8; 2];

/// The places of a question's tokens; where it is damaged, as far as these can be told.
pub fn tokens(q: &[u8]) -> Vec<usize> {
    let (mut out, mut at) = (vec![], 1);
    while at < q.len() {
        out.push(at);
        at += match q[at] {
            1 | 8 => 6,
            7 => 3,
            _ => 1,
        };
    }
    out
}

/// The places of its ranges, tokens 01 and 08 that are not cut short.
pub fn ranges(q: &[u8]) -> Vec<usize> {
    tokens(q).into_iter().filter(|&at| at + 6 <= q.len() && matches!(q[at], 1 | 8)).collect()
}

pub fn questions(fs: &mut Frames) -> impl Iterator<Item = &mut Vec<u8>> {
    fs.iter_mut().filter(|f| f.first() == Some(&QUESTION))
}

/// The station count of a header of kind 10 that is as long as it says.
fn stations(fs: &Frames) -> Option<usize> {
    match fs.first().map(Vec::as_slice) {
        Some([HEADER, n, values @ ..]) if values.len() == 2 * *n as usize => Some(*n as usize),
        _ => None,
    }
}

/// Makes the header one of kind 11, and puts in the place of each value, by its station, a value and a panel.
pub fn put(fs: &mut Frames, mut both: impl FnMut(u8, Number) -> [Number; 2]) {
    let Some(n) = stations(fs) else { return };
    let values = fs[0].split_off(2);
    fs[0][0] = WITH_PANELS;
    for (j, v) in (0..).zip(values.chunks(2)) {
        fs[0].extend(both(j, [v[0], v[1]]).as_flattened());
    }
    for f in fs.iter_mut().filter(|f| f.first() == Some(&EVENT) && f.len() == 4 + n) {
        let fields = both(f[1], [f[2], f[3]]);
        f.splice(2..4, fields.into_iter().flatten());
    }
}

/// Makes tokens 01 such as are chosen, by their station, tokens 08.
pub fn ask(fs: &mut Frames, mut chosen: impl FnMut(u8) -> bool) {
    for q in questions(fs) {
        ranges(q).into_iter().for_each(|at| q[at] = if chosen(q[at + 1]) { 8 } else { 1 });
    }
}

/// The values of some frames, and the ends of their ranges. Panels are drawn from these, so that one can be taken for the other.
fn numbers(fs: &Frames) -> Vec<Number> {
    let mut out = vec![];
    for f in fs {
        match f[..] {
            [HEADER, _, ref values @ ..] => out.extend(values.chunks_exact(2).map(|v| [v[0], v[1]])),
            [EVENT, _, high, low, ..] => out.push([high, low]),
            [QUESTION, ..] => out.extend(ranges(f).into_iter().flat_map(|at| [[f[at + 2], f[at + 3]], [f[at + 4], f[at + 5]]])),
            _ => {}
        }
    }
    out
}

/// One of some numbers, or seldom one beside it.
fn near(d: &mut Draw, numbers: &[Number]) -> Number {
    let beside = d.pick(&[0, 0, 0, 1, u16::MAX]);
    u16::from_be_bytes(d.pick(numbers)).wrapping_add(beside).to_be_bytes()
}

/// The panels of some stations are what their values were, and asked for in their place; the other of both is drawn. What is answered stays
/// as it was.
fn moved(d: &mut Draw, fs: &mut Frames) {
    let (numbers, moved) = (numbers(fs), [0; 256].map(|_| d.below(2) == 0));
    put(fs, |station, value| {
        let other = near(d, &numbers);
        if moved[station as usize] { [other, value] } else { [value, other] }
    });
    ask(fs, |station| moved[station as usize]);
}

/// Either is asked for, of any station. Some ranges are turned round, so that they go through zero, and few hold every number.
fn mixed(d: &mut Draw, fs: &mut Frames) {
    ask(fs, |_| d.below(2) == 0);
    for q in questions(fs) {
        for at in ranges(q) {
            let ends = &mut q[at + 2..at + 6];
            match d.below(30) {
                0..=2 => ends.copy_from_slice(&[0, 0, 255, 255]),
                3..=14 => ends.rotate_left(2),
                _ => {}
            }
        }
    }
}

/// Some questions, but none of the longest and few with a token 07, are negated, or asked for always.
fn negated(d: &mut Draw, fs: &mut Frames) {
    for q in questions(fs).filter(|q| q.len() < LONGEST) {
        let clear = tokens(q).iter().any(|&at| q[at] == 7);
        if d.below(if clear { 20 } else { 4 }) == 0 {
            q.insert(1, d.pick(&[2, 6]));
        }
    }
}

/// With a header of kind 11, or with panels that are 0 since it is of kind 10.
fn give(d: &mut Draw, fs: &mut Frames) {
    match d.below(12) {
        0 | 1 => mixed(d, fs),
        2..=6 => {
            let numbers = numbers(fs);
            put(fs, |_, value| [value, near(d, &numbers)]);
            mixed(d, fs);
        }
        _ => moved(d, fs),
    }
    negated(d, fs);
}

/// A question about the limit that tokens 08 count for, or with one of them that is cut short or of a station that is not there.
fn limit(d: &mut Draw, s: Shape) -> Vec<u8> {
    let (range, before) = (made::range(d, s), vec![d.pick(&[2, 5, 6]); d.below(3)]);
    let q = match d.below(7) {
        0 => messages::either(d, s, 12),
        1 | 2 => messages::either(d, s, 13),
        3 | 4 => [before, vec![8], range[1..1 + d.below(5)].to_vec()].concat(),
        _ => [before, vec![8, s.stations as u8], range[2..].to_vec()].concat(),
    };
    let mut fs = vec![[vec![QUESTION], q].concat()];
    ask(&mut fs, |station| station as usize >= s.stations || d.below(3) > 0);
    fs.remove(0)
}

/// A header of either kind for so many stations, with no numbers but 0.
fn header(kind: u8, stations: usize) -> Vec<u8> {
    [vec![kind, stations as u8], vec![0; stations * if kind == HEADER { 2 } else { 4 }]].concat()
}

/// A header with the length of the other kind, with a station count of 0 or 9, too long, or too short.
fn faulty_header(d: &mut Draw, f: &mut Vec<u8>, [kind, other]: [u8; 2]) {
    let (n, length) = (f[1] as usize, f.len());
    match d.below(6) {
        0 | 1 => f[0] = other,
        2 => *f = [vec![kind], header(other, n)[1..].to_vec()].concat(),
        3 => *f = header(kind, d.pick(&[0, STATIONS + 1])),
        4 => f.extend(vec![0; 1 + d.below(3)]),
        _ => f.truncate(1 + d.below(length - 1)),
    }
}

/// An event of the length that goes with the other kind of header, or of one byte less than is right, or with a clock that may be too low.
fn faulty_event(d: &mut Draw, f: &mut Vec<u8>, kind: u8) {
    let last = f.len() - 1;
    match d.below(4) {
        0 => f[last] = f[last].wrapping_sub(1),
        1 => f.truncate(last),
        _ if kind == HEADER => drop(f.splice(4..4, [0; 2])),
        _ => drop(f.drain(4..6)),
    }
}

/// Frames with a header or an event at fault, a second header of either kind, or a question about limits.
fn damage(d: &mut Draw, fs: &mut Frames) {
    let Some(&[kind @ (HEADER | WITH_PANELS), n, ..]) = fs.first().map(Vec::as_slice) else { return };
    let (n, other) = (n as usize, kind ^ HEADER ^ WITH_PANELS);
    let events: Vec<usize> = (0..fs.len()).filter(|&i| fs[i].first() == Some(&EVENT) && fs[i].len() > 6).collect();
    match d.below(20) {
        0..=5 => faulty_header(d, &mut fs[0], [kind, other]),
        6..=8 => {
            let place = 1 + d.below(2) * d.below(fs.len());
            fs.insert(place, header(d.pick(&[kind, other, other]), n));
        }
        9..=12 if !events.is_empty() => {
            let i = d.pick(&events);
            faulty_event(d, &mut fs[i], kind);
        }
        _ => fs.push(limit(d, Shape { stations: n.max(1), events: 0, questions: 0, ranges: 0, step: 1, zero: 2 })),
    }
}

/// A log of any number of stations.
fn drawn(d: &mut Draw) -> Frames {
    let (stations, events, questions, ranges) = (1 + d.below(STATIONS), d.below(20), 1 + d.below(3), 1 + d.below(6));
    let s = Shape { stations, events, questions, ranges, step: d.pick(&[1, 1, 255, 21845]), zero: d.pick(&[0, 2, 4]) };
    made::frames(d, s)
}

/// Frames of another maker, or in the place of small ones seldom the longest that there are, with panels; damaged or not, if they are not
/// large.
pub fn frames(d: &mut Draw, fs: Frames) -> Frames {
    let mut fs = match d.below(200) {
        _ if fs.len() > PROGRAM.events => fs,
        0 => messages::full(d, OPERATIONS.events),
        1 | 2 => messages::full(d, PROGRAM.events),
        3..=47 => drawn(d),
        _ => fs,
    };
    give(d, &mut fs);
    if fs.len() <= PROGRAM.events && d.below(5) < 2 {
        damage(d, &mut fs);
    }
    fs
}
