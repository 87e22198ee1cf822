//! Made-up pairs of logs: any two, damaged ones on either side or both, and such as have together what one log may have, or just too much.
use crate::check::Case;
use crate::draw::Draw;
use crate::ends::Frames;
use crate::log::{OPERATIONS, STATIONS};
use crate::made::{self, word, Shape};
use crate::messages;
use crate::panels;
use crate::silent;

/// What one log can be refused with.
pub const NUMBERS: [usize; 11] = [1, 2, 3, 4, 5, 6, 7, 8, 9, 15, 16];

/// Two logs, and the draws that follow.
pub struct Pair {
    pub first: Vec<u8>,
    pub second: Vec<u8>,
    pub draw: Draw,
}

/// How many stations, events and messages a log has.
type Counts = [usize; 3];

/// Frames of a log with such counts, as far as there are events that could send; with panels or not, with silent stations or not.
fn frames(d: &mut Draw, [stations, events, messages]: Counts) -> Frames {
    let (step, questions) = (d.pick(&[1, 1, 255, 21845]), d.below(3));
    let s = Shape { stations, events, questions, ranges: 3, step, zero: d.pick(&[0, 2, 4]) };
    let mut fs = if messages > 0 || d.below(4) == 0 { messages::log(d, s, messages) } else { made::frames(d, s) };
    if d.below(2) == 0 {
        panels::put(&mut fs, |_, value| [value, word(d.below(4) * step)]);
    }
    if d.below(3) == 0 {
        panels::ask(&mut fs, |_| d.below(2) == 0);
    }
    if d.below(6) == 0 {
        silent::give(d, &mut fs);
    }
    fs
}

/// Two parts of a number, none of them less or more than there may be.
fn parted(d: &mut Draw, all: usize, least: usize, most: usize) -> [usize; 2] {
    let (low, high) = (least.max(all.saturating_sub(most)), most.min(all - least));
    let first = if d.below(4) == 0 { d.pick(&[low, high]) } else { low + d.below(high - low + 1) };
    [first, all - first]
}

/// A number of what both logs have: few, as many as there may be, one more, or many more.
fn about(d: &mut Draw, few: usize, most: usize) -> usize {
    match d.below(10) {
        0..=2 => most,
        3..=5 => most + 1,
        6 if d.below(2) == 0 => most + 1 + d.below(most),
        _ => d.below(few + 1),
    }
}

/// About what two logs may have together.
fn limits(d: &mut Draw) -> [Frames; 2] {
    let (events, messages) = (about(d, 12, OPERATIONS.events), about(d, 6, OPERATIONS.messages));
    let stations = if d.below(3) == 0 { STATIONS + 1 + d.below(3) } else { d.pick(&[4, 5, STATIONS, STATIONS]) };
    // Those that send many messages are two or more, with events of both.
    let [least, few] = if messages < 10 { [1, 0] } else { [2, 8] };
    let stations = parted(d, stations, least, STATIONS);
    let (events, messages) = (parted(d, events.max(2 * few), few, OPERATIONS.events), parted(d, messages, 0, OPERATIONS.messages));
    [0, 1].map(|i| frames(d, [stations[i], events[i], messages[i]]))
}

/// Asks for the moments at which one station or more has its initial value, which are several where two stations change it.
fn at_first(header: &[u8]) -> Vec<u8> {
    let n = header[1] as usize;
    let values = (0..).zip(header[2..].chunks((header.len() - 2) / n));
    let atoms = values.flat_map(|(j, v)| [1, j, v[0], v[1], v[0], v[1]]);
    [vec![0x30], vec![4; n - 1], atoms.collect()].concat()
}

/// So few of each that every cut can be tested.
fn small(d: &mut Draw) -> Frames {
    let counts = [1 + d.below(3), d.below(7), d.pick(&[0, 0, 1, 3])];
    let mut fs = frames(d, counts);
    if d.below(2) == 0 {
        fs.push(at_first(&fs[0]));
    }
    fs
}

/// A log of some frames, changed so that it is refused with a number.
fn refused(d: &mut Draw, number: usize, mut fs: Frames) -> Vec<u8> {
    let (n, length) = (fs[0][1] as usize, fs[0].len());
    match number {
        4 => fs.push(d.pick(&[&[0x60][..], &[0x10], &[0x11, 1], &[0x24, 1]]).to_vec()),
        5 => fs[0].truncate(1 + d.below(length - 1)),
        6 => fs.insert(1, d.pick(&[&[0x20][..], &[0x20, 0, 0]]).to_vec()),
        7 => fs.insert(1, [vec![0x20, 0], vec![0; (length - 2) / n + n]].concat()),
        8 => fs.push(d.pick(&[&[0x30][..], &[0x30, 9], &[0x30, 7, 8, 0]]).to_vec()),
        9 => fs.push([vec![0x30], vec![2; 32], vec![7, 0, 0]].concat()),
        15 => fs.insert(1, d.pick(&[&[0x25][..], &[0x25, 0, 1, 0, 0], &[0x25, 0, 0, 0]]).to_vec()),
        16 => fs.push(d.pick(&[&[0x30, 2, 7, 0, 0][..], &[0x30, 6, 7, 0, 0]]).to_vec()),
        _ => {}
    }
    let mut log = made::lines(&fs);
    match number {
        1 => log.resize(OPERATIONS.log + 1 + d.below(2) * OPERATIONS.log, b'0'),
        2 => log.extend(d.pick(&[&b"\n"[..], b"0", b"00\n", b"10f0\n", b"10F\n"])),
        3 => log.extend(d.pick(&[&b"3001\n"[..], b"25DC\n", b"10F1\n"])),
        _ => {}
    }
    log
}

/// Logs that are small or about limits, one of them or both refused with a number that is drawn.
fn damaged(d: &mut Draw) -> [Vec<u8>; 2] {
    let [first, second] = if d.below(3) == 0 { limits(d) } else { [0; 2].map(|_| small(d)) };
    let (good, numbers) = (d.below(3), [0; 2].map(|_| d.pick(&NUMBERS)));
    [refused(d, if good == 0 { 0 } else { numbers[0] }, first), refused(d, if good == 1 { 0 } else { numbers[1] }, second)]
}

impl Pair {
    /// What a seed gives, mostly nothing.
    pub fn new(seed: u64) -> Option<Self> {
        let mut draw = Draw(seed.rotate_left(24));
        let d = &mut draw;
        let [first, second] = match d.below(40) {
            0 | 1 => [0; 2].map(|_| Case::new(d.below(usize::MAX) as u64).log),
            2 | 3 => damaged(d),
            4 | 5 => limits(d).map(|fs| made::lines(&fs)),
            6..=11 => [0; 2].map(|_| made::lines(&small(d))),
            12 => {
                let log = made::lines(&if d.below(2) == 0 { small(d) } else { limits(d)[0].clone() });
                [log.clone(), log]
            }
            _ => return None,
        };
        Some(Pair { first, second, draw })
    }
}
