//! Made-up logs with messages, and questions about what is on the way between stations.
use crate::draw::Draw;
use crate::ends::{self, Frames};
use crate::log::{OPERATIONS, PROGRAM, STATIONS};
use crate::made::{self, word, Clocks, Shape};

const KIND: u8 = 0x25;
const MOST: usize = OPERATIONS.messages;

/// Sender and receiver.
pub type Pair = [usize; 2];

/// Two different stations, if there are two.
pub fn pair(d: &mut Draw, stations: usize) -> Pair {
    let i = d.below(stations);
    [i, if stations == 1 { i } else { (i + 1 + d.below(stations - 1)) % stations }]
}

/// The clocks of each station's events among some frames, as far as these are good.
pub fn clocks(fs: &Frames, stations: usize) -> Vec<Frames> {
    let mut out = vec![vec![]; stations];
    for f in fs.iter().filter(|f| f.first() == Some(&0x20) && f.len() == 4 + stations && (f[1] as usize) < stations) {
        out[f[1] as usize].push(f[4..].to_vec());
    }
    out
}

/// A message received by an event that has seen its sending, one of the last so many events that it has seen of the sender.
pub fn received(d: &mut Draw, clocks: &[Frames], [i, j]: Pair, last: usize) -> Option<Vec<u8>> {
    let seeing: Vec<usize> = (0..clocks[j].len()).filter(|&k| clocks[j][k][i] > 0).collect();
    if seeing.is_empty() {
        return None;
    }
    let k = d.pick(&seeing);
    let seen = clocks[j][k][i] as usize;
    Some(vec![KIND, i as u8, (seen - d.below(seen.min(last))) as u8, j as u8, k as u8 + 1])
}

/// One that never came.
fn lost(d: &mut Draw, clocks: &[Frames], [i, j]: Pair) -> Option<Vec<u8>> {
    let sendings = clocks[i].len();
    if sendings == 0 {
        return None;
    }
    let sent = if d.below(3) == 0 { sendings } else { 1 + d.below(sendings) };
    Some(vec![KIND, i as u8, sent as u8, j as u8, 0])
}

/// A message that was received, or seldom never came; nothing if the sender has no event.
fn message(d: &mut Draw, clocks: &[Frames], pair: Pair) -> Option<Vec<u8>> {
    let (never, last) = (d.below(12) == 0, d.pick(&[1, 3, OPERATIONS.events]));
    let came = if never { None } else { received(d, clocks, pair, last) };
    came.or_else(|| lost(d, clocks, pair))
}

/// So many messages, where there are events to send them: most of them of these pairs, and some named twice.
fn messages(d: &mut Draw, clocks: &[Frames], pairs: &[Pair], count: usize) -> Frames {
    let mut out = Frames::new();
    for _ in 0..if clocks.len() == 1 { 0 } else { 16 * count } {
        let of = if d.below(5) == 0 { pair(d, clocks.len()) } else { d.pick(pairs) };
        if !out.is_empty() && d.below(8) == 0 {
            out.push(out[d.below(out.len())].clone());
        } else {
            out.extend(message(d, clocks, of));
        }
        if out.len() >= count {
            break;
        }
    }
    out
}

/// A token 07, mostly of one of these pairs.
fn clear(d: &mut Draw, stations: usize, pairs: &[Pair]) -> Vec<u8> {
    let [i, j] = if d.below(5) == 0 { [d.below(stations), d.below(stations)] } else { d.pick(pairs) };
    vec![7, i as u8, j as u8]
}

/// Tokens of one operand, and the sign that this is used under.
fn signs(d: &mut Draw, sign: bool) -> (&'static [u8], bool) {
    let all: [(&[u8], bool); 7] =
        [(&[2], !sign), (&[5], true), (&[6], false), (&[2, 2], sign), (&[6, 2], true), (&[2, 5], true), (&[2, 6, 2], true)];
    if d.below(3) == 0 { d.pick(&all) } else { (&[], sign) }
}

/// A formula with so many atoms. Used as true, two atoms in three are tokens 07; used as false, few are.
fn formula(d: &mut Draw, s: Shape, pairs: &[Pair], atoms: usize, sign: bool) -> Vec<u8> {
    let (before, sign) = signs(d, sign);
    let part = if atoms > 1 {
        let left = 1 + d.below(atoms - 1);
        [vec![d.pick(&[3, 4])], formula(d, s, pairs, left, sign), formula(d, s, pairs, atoms - left, sign)].concat()
    } else if d.below(24) < if sign { 16 } else { 1 } {
        clear(d, s.stations, pairs)
    } else {
        made::range(d, s)
    };
    [before, &part].concat()
}

/// Tokens 01 and 07 joined by or.
pub fn either(d: &mut Draw, s: Shape, atoms: usize) -> Vec<u8> {
    let pairs = [pair(d, s.stations)];
    let parts = (0..atoms).flat_map(|_| if d.below(2) == 0 { clear(d, s.stations, &pairs) } else { made::range(d, s) });
    [vec![4; atoms - 1], parts.collect()].concat()
}

/// A question about the limits that tokens 07 count for, their operands, and what is refused before their sign.
fn limit(d: &mut Draw, s: Shape) -> Vec<u8> {
    let (pairs, there, over) = ([pair(d, s.stations)], d.below(s.stations) as u8, s.stations as u8);
    let one = clear(d, s.stations, &pairs);
    let q = match d.below(10) {
        0 => either(d, s, 12),
        1 => either(d, s, 13),
        2 => [vec![6], either(d, s, 13)].concat(),
        3 => [vec![2; d.pick(&[30, 31, 32, 33])], one].concat(),
        4 => [vec![3], either(d, s, 4), either(d, s, 5)].concat(),
        5 => [vec![2, 4], vec![2], either(d, s, 4), vec![2], either(d, s, 5)].concat(),
        6 => vec![7, over, there],
        7 => vec![2, 7, there, over],
        8 => [vec![2; d.below(2)], one[..1 + d.below(2)].to_vec()].concat(),
        _ => [vec![6], one, vec![d.byte()]].concat(),
    };
    [vec![0x30], q].concat()
}

/// Header, events, messages and questions.
pub fn log(d: &mut Draw, s: Shape, count: usize) -> Frames {
    let (apart, pairs) = (1 + d.below(3), [0; 2].map(|_| pair(d, s.stations)));
    let pairs = &pairs[..1 + d.below(2)];
    let mut fs = vec![made::header(d, s)];
    fs.extend(made::events(d, s, apart));
    fs.extend(messages(d, &clocks(&fs, s.stations), pairs, count));
    for _ in 0..s.questions {
        let atoms = 1 + d.below(s.ranges);
        fs.push([vec![0x30], formula(d, s, pairs, atoms, true)].concat());
    }
    fs
}

/// Gives a message a fault, mostly.
fn fault(d: &mut Draw, clocks: &[Frames], f: &mut Vec<u8>) {
    let of = |j: u8| clocks.get(j as usize).map_or(&[][..], |all| all);
    let &[_, i, _, j, _] = &f[..] else { return };
    match d.below(9) {
        0 => f.truncate(1 + d.below(4)),
        1 => f.push(d.below(2) as u8),
        2 => f[1] = clocks.len() as u8,
        3 => f[3] = clocks.len() as u8,
        4 => f[2] = 0,
        5 => f[2] = of(i).len() as u8 + 1,
        6 => f[4] = of(j).len() as u8 + 1,
        7 => f[3] = i,
        _ if of(j).is_empty() => f.push(0),
        _ => {
            let k = d.below(of(j).len());
            (f[2], f[4]) = (of(j)[k].get(i as usize).map_or(0, |seen| seen + 1), k as u8 + 1);
        }
    }
}

/// Frames with a message that is at fault or elsewhere, with a question about limits, or damaged in another way.
fn damage(d: &mut Draw, s: Shape, fs: &mut Frames) {
    let at: Vec<usize> = (0..fs.len()).filter(|&i| fs[i].first() == Some(&KIND)).collect();
    match d.below(8) {
        0 => made::damage(d, s, fs),
        1 | 2 => fs.push(limit(d, s)),
        _ if at.is_empty() => made::damage(d, s, fs),
        3 => {
            let f = fs.remove(d.pick(&at));
            fs.insert(d.below(fs.len() + 1), f);
        }
        _ => {
            let i = d.pick(&at);
            fault(d, &clocks(fs, s.stations), &mut fs[i]);
        }
    }
}

fn shape(d: &mut Draw, stations: usize, events: usize, ranges: usize) -> Shape {
    Shape { stations, events, questions: 1 + d.below(3), ranges, step: d.pick(&[1, 1, 255, 21845]), zero: d.pick(&[0, 2, 4]) }
}

/// Any number of messages, damaged or not.
fn drawn(d: &mut Draw, s: Shape) -> Frames {
    let most = d.pick(&[4, 8, 8, 16]);
    let count = d.below(most);
    let mut fs = log(d, s, count);
    for _ in 0..d.pick(&[0, 0, 0, 1, 1, 2]) {
        if !fs.is_empty() {
            damage(d, s, &mut fs);
        }
    }
    fs
}

/// As many messages as there may be, or one more, which is often at fault itself.
fn many(d: &mut Draw, events: usize) -> Frames {
    let (stations, over) = (2 + d.below(STATIONS - 1), d.below(2));
    let s = shape(d, stations, events, 4);
    let mut fs = log(d, s, MOST + over);
    if over == 1 && d.below(4) > 0 {
        let last = fs.iter().rposition(|f| f[0] == KIND).expect("messages");
        fault(d, &clocks(&fs, stations), &mut fs[last]);
    }
    fs
}

/// Messages of one pair, each received by an event that has seen the next one's sending, so that one brings in another, to the last. They
/// are named last first, mostly.
fn chain(d: &mut Draw, length: usize) -> Frames {
    let stations = d.pick(&[2, 2, 3, 8]);
    let ([i, j], s) = (pair(d, stations), shape(d, stations, 2 * length + 1, 3));
    let (mut clocks, mut fs) = (Clocks::new(stations), vec![made::header(d, s)]);
    for k in 0..=2 * length {
        let of = if k > 0 && k % 2 == 0 { j } else { i };
        fs.push([vec![0x20, of as u8], word(d.below(4) * s.step).to_vec(), clocks.next(of, i)].concat());
    }
    let mut named: Vec<u8> = (1..=length as u8).rev().collect();
    if d.below(4) == 0 {
        named.rotate_left(d.below(length));
    }
    let never = if d.below(4) == 0 { length as u8 } else { 0 };
    fs.extend(named.iter().map(|&k| vec![KIND, i as u8, k, j as u8, if k == never { 0 } else { k }]));
    fs.push(vec![0x30, 7, i as u8, j as u8]);
    for _ in 0..s.questions {
        let atoms = 1 + d.below(s.ranges);
        fs.push([vec![0x30], formula(d, s, &[[i, j]], atoms, true)].concat());
    }
    fs
}

/// The longest log that there is of so many events without panels.
pub fn full(d: &mut Draw, events: usize) -> Frames {
    let (mut fs, pairs) = (ends::full(d, events), [pair(d, STATIONS)]);
    let all = messages(d, &clocks(&fs, STATIONS), &pairs, MOST);
    fs.splice(1 + events..1 + events, all);
    fs
}

/// Logs within the program's limits.
pub fn frames(d: &mut Draw) -> Frames {
    match d.below(40) {
        0..=2 => {
            let events = d.pick(&[20, 60, PROGRAM.events]);
            many(d, events)
        }
        3 => {
            let length = 1 + d.below(PROGRAM.events / 2);
            chain(d, length)
        }
        4..=6 => {
            let length = 1 + d.below(8);
            chain(d, length)
        }
        7 | 8 => {
            let (stations, events) = (2 + d.below(STATIONS - 1), d.below(PROGRAM.events + 1));
            let s = shape(d, stations, events, 6);
            drawn(d, s)
        }
        _ => {
            let (stations, events, ranges) = (d.pick(&[1, 2, 2, 2, 2, 3, 3, 3, 4]), d.below(14), 1 + d.below(5));
            let s = shape(d, stations, events, ranges);
            drawn(d, s)
        }
    }
}

/// Logs past the program's limits, or at the operations'.
pub fn large_frames(d: &mut Draw) -> Frames {
    let events = PROGRAM.events + 1 + d.below(OPERATIONS.events - PROGRAM.events);
    match d.below(8) {
        0 | 1 => many(d, events),
        2..=4 => chain(d, MOST),
        5 => full(d, OPERATIONS.events),
        _ => {
            let stations = 2 + d.below(STATIONS - 1);
            let s = shape(d, stations, events, 4);
            drawn(d, s)
        }
    }
}
