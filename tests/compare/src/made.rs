//! Made-up logs: valid ones of any size, and ones damaged in every way that document 01 names.
use crate::draw::Draw;
use crate::log::line;

/// How large a log is made. Values are 0 to 3 times the step; one range in `zero` goes through zero, none if it is 0.
#[derive(Clone, Copy)]
pub struct Shape {
    pub stations: usize,
    pub events: usize,
    pub questions: usize,
    pub ranges: usize,
    pub step: usize,
    pub zero: usize,
}

pub fn word(v: usize) -> [u8; 2] {
    (v as u16).to_be_bytes()
}

/// Lo and hi of a range through zero: each is a value or one beside it, or lo is one above hi.
fn through_zero(d: &mut Draw, step: usize) -> [usize; 2] {
    let [a, b] = [0; 2].map(|_| (d.below(4) * step + d.below(3)).clamp(1, 65536) - 1);
    if a == b || d.below(4) == 0 { [a.max(1), a.max(1) - 1] } else { [a.max(b), a.min(b)] }
}

pub fn range(d: &mut Draw, s: Shape) -> Vec<u8> {
    let lo = d.below(4);
    let mut ends = [lo * s.step, (lo + d.below(4 - lo)) * s.step];
    if s.zero > 0 && d.below(s.zero) == 0 {
        ends = through_zero(d, s.step);
    }
    [vec![1, d.below(s.stations) as u8], word(ends[0]).to_vec(), word(ends[1]).to_vec()].concat()
}

/// A formula with so many ranges, and a token of one operand before one part in four.
pub fn formula(d: &mut Draw, s: Shape, ranges: usize) -> Vec<u8> {
    let mut q = if d.below(4) == 0 { vec![d.pick(&[2, 5, 6])] } else { vec![] };
    if ranges == 1 {
        q.extend(range(d, s));
    } else {
        let left = 1 + d.below(ranges - 1);
        q.push(d.pick(&[3, 4]));
        q.extend(formula(d, s, left));
        q.extend(formula(d, s, ranges - left));
    }
    q
}

/// Ways joined by or, each one value at up to three stations: several moments.
fn ways(d: &mut Draw, s: Shape) -> Vec<u8> {
    let (each, ways) = (s.stations.min(3), 2 + d.below(3));
    let mut q = vec![4; ways - 1];
    for _ in 0..ways {
        let first = d.below(s.stations);
        q.extend(vec![3; each - 1]);
        for j in 0..each {
            let v = word(d.below(4) * s.step);
            q.extend([1, ((first + j) % s.stations) as u8, v[0], v[1], v[0], v[1]]);
        }
    }
    q
}

/// Ors joined by and, one for each number, of so many ranges: their product is the width.
pub fn product(d: &mut Draw, s: Shape, ors: &[usize]) -> Vec<u8> {
    let mut q = vec![3; ors.len() - 1];
    for &k in ors {
        q.extend(vec![4; k - 1]);
        (0..k).for_each(|_| q.extend(range(d, s)));
    }
    q
}

/// "Always not" before a product: its width is the bar count. "Possibly" before that takes the bars away.
fn barred(d: &mut Draw, s: Shape) -> Vec<u8> {
    let ors = d.pick(&[&[2, 2, 2][..], &[3, 3], &[3, 2]]);
    [if d.below(4) == 0 { vec![5, 6, 2] } else { vec![6, 2] }, product(d, s, ors)].concat()
}

pub fn header(d: &mut Draw, s: Shape) -> Vec<u8> {
    let mut f = vec![0x10, s.stations as u8];
    (0..s.stations).for_each(|_| f.extend(word(d.below(4) * s.step)));
    f
}

/// The clocks of the stations' last events.
pub struct Clocks(Vec<Vec<u8>>);

impl Clocks {
    pub fn new(stations: usize) -> Self {
        Clocks(vec![vec![0; stations]; stations])
    }

    /// The clock of the next event of station j, which has seen the last event of another; j itself stands for none.
    pub fn next(&mut self, j: usize, other: usize) -> Vec<u8> {
        let mut clock: Vec<u8> = self.0[j].iter().zip(&self.0[other]).map(|(x, y)| *x.max(y)).collect();
        clock[j] = self.0[j][j] + 1;
        self.0[j] = clock.clone();
        clock
    }
}

/// Events, each of which has seen the last event of another station with one chance in `apart`.
pub fn events(d: &mut Draw, s: Shape, apart: usize) -> Vec<Vec<u8>> {
    let mut clocks = Clocks::new(s.stations);
    let event = |_| {
        let j = d.below(s.stations);
        let other = if d.below(apart) == 0 { d.below(s.stations) } else { j };
        let clock = clocks.next(j, other);
        [vec![0x20, j as u8], word(d.below(4) * s.step).to_vec(), clock].concat()
    };
    (0..s.events).map(event).collect()
}

fn question(d: &mut Draw, s: Shape) -> Vec<u8> {
    let q = match d.below(3) {
        0 => ways(d, s),
        _ => {
            let ranges = 1 + d.below(s.ranges);
            formula(d, s, ranges)
        }
    };
    [vec![0x30], q].concat()
}

pub fn frames(d: &mut Draw, s: Shape) -> Vec<Vec<u8>> {
    let apart = 1 + d.below(5);
    let mut fs = vec![header(d, s)];
    fs.extend(events(d, s, apart));
    fs.extend((0..s.questions).map(|_| question(d, s)));
    fs
}

/// A log's bytes.
pub fn lines(fs: &[Vec<u8>]) -> Vec<u8> {
    fs.iter().flat_map(|f| line(f)).collect()
}

pub fn list(fs: &[Vec<u8>]) -> Vec<u8> {
    fs.iter().flat_map(|f| [vec![f.len() as u8], f.clone()].concat()).collect()
}

/// Questions about the limits of tokens, ranges, width, bars, stations and number.
fn limits(d: &mut Draw, s: Shape, fs: &mut Vec<Vec<u8>>) {
    let q = match d.below(8) {
        0 => [vec![2; d.pick(&[30, 31, 32, 92])], range(d, s)].concat(),
        1 => {
            let k = d.pick(&[11, 12, 13]);
            formula(d, s, k)
        }
        2 => {
            let ors = d.pick(&[&[2, 2, 2, 2][..], &[3, 3, 2], &[4, 4], &[5, 3]]);
            product(d, s, ors)
        }
        3 => [vec![4], product(d, s, &[2, 2, 2, 2]), range(d, s)].concat(),
        4 => [vec![3], barred(d, s), barred(d, s)].concat(),
        5 => [vec![4], barred(d, s), barred(d, s)].concat(),
        6 => range(d, Shape { stations: s.stations + 1, ..s }),
        _ => {
            fs.extend((0..d.pick(&[12, 13, 14, 15, 16])).map(|_| question(d, Shape { ranges: 1, ..s })));
            range(d, s)
        }
    };
    fs.push([vec![0x30], q].concat());
}

/// Frames with one of them changed, cut off, taken out, doubled, moved or added.
pub fn damage(d: &mut Draw, s: Shape, fs: &mut Vec<Vec<u8>>) {
    let i = if d.below(2) == 0 { d.below(fs.len()) } else { fs.len() - 1 };
    let (kind, length) = (fs[i].first().copied(), fs[i].len());
    match d.below(14) {
        0 => fs.insert(d.below(fs.len() + 1), fs[i].clone()),
        1 => drop(fs.remove(i)),
        2 => {
            let f = fs.remove(i);
            fs.insert(d.below(fs.len() + 1), f);
        }
        3 if length > 0 => fs[i][0] = d.pick(&[0x10, 0x20, 0x30, d.0 as u8]),
        4 | 5 if length > 0 => fs[i][d.below(length)] = d.byte(),
        6 => fs[i].extend((0..d.pick(&[1, 2, 100])).map(|_| d.byte())),
        7 => fs[i].truncate(d.below(length + 1)),
        8 | 9 if kind == Some(0x20) && length > 4 => {
            let k = 4 + d.below(length - 4);
            fs[i][k] = fs[i][k].wrapping_add(d.pick(&[1, 255, 2]));
        }
        10 if kind == Some(0x20) && length > 1 => fs[i][1] = s.stations as u8,
        11 if fs[0].len() > 1 => fs[0][1] = d.pick(&[0, 9, s.stations as u8 + 1]),
        12 if d.below(4) == 0 => fs.clear(),
        _ => limits(d, s, fs),
    }
}

/// Bytes with one of them changed, added or taken out, or cut off, or drawn out to about the most there may be.
pub fn spoil(d: &mut Draw, most: usize, bytes: &mut Vec<u8>) {
    if bytes.is_empty() {
        return;
    }
    let i = d.below(bytes.len());
    match d.below(8) {
        0 => bytes[i] = d.byte(),
        1 => bytes[i] = d.pick(b"0123456789ABCDEFabcdef\n\r G\0"),
        2 => drop(bytes.remove(i)),
        3 => bytes.insert(i, d.pick(b"0F\n")),
        4 => bytes.truncate(i),
        5 => {
            bytes.extend(vec![b'0'; 2 * d.pick(&[1, 2, 99, 100, 101])]);
            bytes.push(0x0A);
        }
        6 => stretch(d, most, bytes, false),
        _ => stretch(d, most, bytes, true),
    }
}

/// Bytes drawn out to about the most there may be, by zeros or by the same once more.
pub fn stretch(d: &mut Draw, most: usize, bytes: &mut Vec<u8>, again: bool) {
    let length = d.pick(&[most - 1, most, most + 1, 2 * most]);
    if again {
        *bytes = bytes.iter().copied().cycle().take(length).collect();
    } else {
        bytes.resize(length, b'0');
    }
}
