//! Made-up logs with silent stations, from those of the other makers: values and panels become FFFF or the number before it, ranges end
//! there, and what may be silent is asked for under every sign.
use crate::draw::Draw;
use crate::ends::Frames;
use crate::formula::SILENT;
use crate::log::{QUESTIONS, STATIONS};
use crate::made::word;
use crate::panels;

const WITH_PANELS: u8 = 0x11;
const EVENT: u8 = 0x20;
const QUESTION: u8 = 0x30;
const FFFF: usize = SILENT as usize;
/// Signs are put before questions of fewer bytes than these.
const SHORT: usize = 60;

/// How often, out of four times, a station's initial value is silent, and a later one.
type Habit = [usize; 2];

const NEVER: Habit = [0, 0];
const THROUGHOUT: Habit = [4, 4];
const HABITS: [Habit; 9] = [NEVER, NEVER, [4, 0], [4, 0], [0, 1], [0, 2], [2, 2], [1, 1], THROUGHOUT];

/// The value of each header or event, with its station and whether it is a later one; behind it, under a header of kind 11, the panel.
fn fields(fs: &mut Frames) -> Vec<(usize, usize, &mut [u8])> {
    let Some((header, events)) = fs.split_first_mut() else { return vec![] };
    let bytes = if header.first() == Some(&WITH_PANELS) { 4 } else { 2 };
    let initial = header.get_mut(2..).unwrap_or_default().chunks_exact_mut(bytes).enumerate().map(|(j, b)| (j, 0, b));
    let events = events.iter_mut().filter(|f| f.first() == Some(&EVENT) && f.len() > 1 + bytes);
    let later = events.map(|f| (f[1] as usize, 1, &mut f[2..2 + bytes]));
    initial.chain(later).collect()
}

/// Makes values silent, by the habits of their stations, or all of them, or none. Some of the others are the number before FFFF, and some
/// panels either.
fn hush(d: &mut Draw, fs: &mut Frames) {
    let habits = match d.below(10) {
        0..=2 => [THROUGHOUT; 256],
        3 | 4 => [NEVER; 256],
        _ => [0; 256].map(|_| d.pick(&HABITS)),
    };
    let (beside, panels) = (d.pick(&[1, 4]), d.pick(&[0, 1, 4]));
    for (station, later, field) in fields(fs) {
        let (value, panel) = field.split_at_mut(2);
        if d.below(4) < habits[station][later] {
            value.copy_from_slice(&word(FFFF));
        } else if d.below(8) < beside {
            value.copy_from_slice(&word(FFFF - 1));
        }
        if !panel.is_empty() && d.below(8) < panels {
            panel.copy_from_slice(&word(d.pick(&[FFFF, FFFF, FFFF - 1])));
        }
    }
}

/// Ends a range, of values or of panels, at FFFF or the number before it, turns it round, or leaves it.
fn end(d: &mut Draw, ends: &mut [u8]) {
    let [lo, hi] = [0, 2].map(|i| u16::from_be_bytes([ends[i], ends[i + 1]]) as usize);
    let all = [
        [lo, FFFF], [FFFF, hi], [FFFF, FFFF], [0, FFFF], [lo, FFFF - 1], [FFFF - 1, hi], [FFFF - 1, FFFF - 1], [hi, lo], [lo, hi], [lo, hi],
    ];
    ends.copy_from_slice(d.pick(&all).map(word).as_flattened());
}

/// Signs before some of the questions, but few with a token 07.
fn sign(d: &mut Draw, q: &mut Vec<u8>) {
    let all: [&[u8]; 9] = [&[2], &[5], &[6], &[2, 5], &[2, 6], &[5, 2], &[6, 2], &[5, 6], &[6, 5]];
    let clear = panels::tokens(q).iter().any(|&at| q[at] == 7);
    if q.len() < SHORT && d.below(if clear { 20 } else { 2 }) == 0 {
        q.splice(1..1, d.pick(&all).iter().copied());
    }
}

/// An atom and its negation, joined or one of them alone, under signs.
fn doubt(d: &mut Draw, stations: usize) -> Vec<u8> {
    let mut atom = [d.pick(&[1, 1, 1, 8]), d.below(stations) as u8, 0, 0, 255, 255];
    end(d, &mut atom[2..]);
    let negated = [&[2], &atom[..]].concat();
    let mut q = match d.below(4) {
        0 => [&[3], &atom[..], &negated].concat(),
        1 => [&[4], &negated[..], &atom].concat(),
        2 => negated,
        _ => atom.to_vec(),
    };
    q.insert(0, QUESTION);
    sign(d, &mut q);
    q
}

/// Makes stations of a log silent and asks about it.
pub fn give(d: &mut Draw, fs: &mut Frames) {
    hush(d, fs);
    for q in panels::questions(fs) {
        panels::ranges(q).into_iter().for_each(|at| end(d, &mut q[at + 2..at + 6]));
        sign(d, q);
    }
    let stations = fs.first().and_then(|f| f.get(1)).map_or(1, |&n| (n as usize).clamp(1, STATIONS));
    let room = QUESTIONS.saturating_sub(panels::questions(fs).count());
    fs.extend((0..room.min(1 + d.below(2))).map(|_| doubt(d, stations)));
}
