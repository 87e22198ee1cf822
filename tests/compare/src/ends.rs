//! Made-up logs at the upper ends of document 01's limits, which drawn ones do not meet; of events, as many as are asked for.
use crate::draw::Draw;
use crate::formula::{fits, parse};
use crate::log::PROGRAM;
use crate::made::{self, word, Clocks, Shape};

pub type Frames = Vec<Vec<u8>>;

/// A station's value is from lo to hi, or outside: from lo to hi of the second pair.
#[derive(Clone, Copy)]
struct Way {
    station: usize,
    inside: [usize; 2],
    outside: [usize; 2],
}

impl Way {
    fn range(&self, sign: bool) -> Vec<u8> {
        let [lo, hi] = if sign { self.inside } else { self.outside };
        [vec![1, self.station as u8], word(lo).to_vec(), word(hi).to_vec()].concat()
    }
}

/// Formulas joined by one token, left before right, in a tree of any form.
fn joined(d: &mut Draw, token: u8, parts: &[Vec<u8>]) -> Vec<u8> {
    if let [part] = parts {
        return part.clone();
    }
    let (left, right) = parts.split_at(1 + d.below(parts.len() - 1));
    [vec![token], joined(d, token, left), joined(d, token, right)].concat()
}

/// One way or more of each group holds, or not so. "Not" stands before it, or goes down to the ranges.
fn one_of_each(d: &mut Draw, groups: &[Vec<Way>], sign: bool) -> Vec<u8> {
    let (before, down) = if d.below(2) == 0 { (vec![], sign) } else { (vec![2], !sign) };
    let (and, or) = if down { (3, 4) } else { (4, 3) };
    let ors: Frames = groups.iter().map(|g| joined(d, or, &g.iter().map(|w| w.range(down)).collect::<Frames>())).collect();
    [before, joined(d, and, &ors)].concat()
}

/// A bar at each of the greatest cuts with one way or more of each group.
fn barred(d: &mut Draw, groups: &[Vec<Way>]) -> Vec<u8> {
    if d.below(2) == 0 { [vec![6], one_of_each(d, groups, false)].concat() } else { [vec![2, 5], one_of_each(d, groups, true)].concat() }
}

/// Stations in any order, by groups of these sizes; each is at its first value, 0.
fn groups(d: &mut Draw, sizes: &[usize]) -> Vec<Vec<Way>> {
    let mut left: Vec<usize> = (0..8).collect();
    let mut way = || Way { station: left.swap_remove(d.below(left.len())), inside: [0, 0], outside: [1, 65535] };
    sizes.iter().map(|&k| (0..k).map(|_| way()).collect()).collect()
}

/// One way of the first group, and of most others, often the last: a greatest cut that is contained in one bar or more, or just in none.
fn some(d: &mut Draw, groups: &[Vec<Way>]) -> Vec<u8> {
    let mut ways = vec![];
    for (i, g) in groups.iter().enumerate() {
        match d.below(4) {
            0 if i > 0 => {}
            1 => ways.push(d.pick(g).range(true)),
            _ => ways.extend(g.last().map(|w| w.range(true))),
        }
    }
    joined(d, 3, &ways)
}

/// Bars on both sides, 15 or 16 together.
fn barred_twice(d: &mut Draw) -> Vec<u8> {
    let sizes = d.pick(&[[&[2, 2, 2][..], &[2, 2, 2]], [&[2, 2], &[3, 2, 2]], [&[2, 3, 2], &[2, 2]], [&[2, 3], &[3, 3]], [&[3, 3], &[2, 3]]]);
    let [left, right] = sizes.map(|k| groups(d, k));
    [vec![3], barred(d, &left), barred(d, &right)].concat()
}

/// A question of 16 moments, structures or bars.
fn sixteen(d: &mut Draw) -> Vec<u8> {
    let sizes = d.pick(&[&[2, 2, 2, 2][..], &[4, 4], &[4, 2, 2], &[2, 4, 2]]);
    let g = groups(d, sizes);
    match d.below(8) {
        0 | 1 => one_of_each(d, &g, true),
        2 => [vec![5], one_of_each(d, &g, true)].concat(),
        3 => barred(d, &g),
        4 => [vec![3], barred(d, &g), some(d, &g)].concat(),
        5 | 6 => [vec![3], some(d, &g), barred(d, &g)].concat(),
        _ => barred_twice(d),
    }
}

/// Eight stations that leave their first value, each with one of these numbers of events, and with seldom a message among them.
pub fn apart(d: &mut Draw, each: &[usize]) -> Frames {
    let (each, apart) = (d.pick(each), d.pick(&[1000, 1000, 1000, 20]));
    let (mut clocks, mut left) = (Clocks::new(8), (0..8 * each).map(|i| i % 8).collect::<Vec<usize>>());
    let mut fs = vec![[vec![0x10, 8], vec![0; 16]].concat()];
    while !left.is_empty() {
        let j = left.swap_remove(d.below(left.len()));
        let other = if d.below(apart) == 0 { d.below(8) } else { j };
        fs.push([vec![0x20, j as u8], word(1 + d.below(65535)).to_vec(), clocks.next(j, other)].concat());
    }
    fs.extend((0..1 + d.below(2)).map(|_| [vec![0x30], sixteen(d)].concat()));
    fs
}

/// The one side and the other, each as often as one of its numbers says, with up to four ranges more. Values are 0 on the left side, 2 on
/// the right, 1 on both.
fn both_sides(d: &mut Draw, times: [&[usize]; 2], stations: usize, station: usize, step: usize) -> Vec<u8> {
    let left = Way { station, inside: [0, step], outside: [2 * step, 2 * step] };
    let right = Way { station, inside: [step, 2 * step], outside: [0, 0] };
    let [lefts, rights] = times.map(|of| d.pick(of));
    let sides = [vec![left; lefts], vec![right; rights]];
    let mut q = one_of_each(d, &sides, true);
    for _ in 0..d.below(5) {
        let more = Way { station: d.below(stations), ..d.pick(&[left, right]) }.range(true);
        q = if d.below(2) == 0 { [vec![3], q, more].concat() } else { [vec![3], more, q].concat() };
    }
    q
}

/// A station that changes sides with each event: a start adds two events a round, and goes on to the last, which is on both sides or not.
pub fn turns(d: &mut Draw, events: usize, both: &[bool], times: [&[usize]; 2]) -> Frames {
    let (stations, step) = (d.pick(&[1, 1, 2, 3]), d.pick(&[1, 255, 21845]));
    let (j, side, both_at_last) = (d.below(stations), d.pick(&[0, 0, 0, 1]), d.pick(both));
    let elsewhere = if stations == 1 { 0 } else { d.below(3) };
    let (mut clocks, mut fs) = (Clocks::new(stations), vec![[0x10, stations as u8].to_vec()]);
    (0..stations).for_each(|_| fs[0].extend(word(2 * side * step)));
    for k in 1..=events {
        let i = if k > elsewhere { j } else { d.below(stations) };
        let other = if d.below(8) == 0 { d.below(stations) } else { i };
        let clock = clocks.next(i, other);
        let value = if k == events && both_at_last { 1 } else { 2 * ((side + clock[i] as usize) % 2) };
        fs.push([vec![0x20, i as u8], word(value * step).to_vec(), clock].concat());
    }
    fs.push([vec![0x30], both_sides(d, times, stations, j, step)].concat());
    fs
}

/// A formula with just so many ranges and tokens of one operand.
fn grown(d: &mut Draw, s: Shape, ranges: usize, single: usize) -> Vec<u8> {
    if single > 0 && (ranges == 1 || d.below(2 * ranges - 1 + single) < single) {
        return [vec![d.pick(&[2, 2, 5, 6])], grown(d, s, ranges, single - 1)].concat();
    }
    if ranges == 1 {
        return made::range(d, s);
    }
    let (left, few) = (1 + d.below(ranges - 1), d.below(single + 1));
    [vec![d.pick(&[3, 4])], grown(d, s, left, few), grown(d, s, ranges - left, single - few)].concat()
}

/// A question of 32 tokens, 12 of them ranges, the first of many that is within the limits of width and bars.
fn longest(d: &mut Draw, s: Shape) -> Vec<u8> {
    let fitting = |q: &[u8]| parse(q, s.stations).is_ok_and(|f| fits(&f).is_ok());
    let mut q = grown(d, s, 12, 9);
    for _ in 0..1000 {
        if fitting(&q) {
            break;
        }
        q = grown(d, s, 12, 9);
    }
    [vec![0x30], q].concat()
}

/// The longest log that there is of so many events without messages and panels.
pub fn full(d: &mut Draw, events: usize) -> Frames {
    let s = Shape { stations: 8, events, questions: 0, ranges: 0, step: d.pick(&[1, 255, 21845]), zero: 0 };
    let mut fs = made::frames(d, s);
    fs.extend((0..16).map(|_| longest(d, s)));
    fs
}

/// A question with the most structures held and the highest ceiling: four ranges, then four two-way ors, each joined with all behind it.
/// With ranges of every value no structure is dropped, unless stations are silent.
fn deepest(d: &mut Draw, s: Shape) -> Vec<u8> {
    let every = d.below(2) == 0;
    let mut range = || if every { vec![1, d.below(s.stations) as u8, 0, 0, 255, 255] } else { made::range(d, s) };
    let mut q = [vec![4], range(), range()].concat();
    for _ in 0..3 {
        q = [vec![3, 4], range(), range(), q].concat();
    }
    for _ in 0..4 {
        q = [vec![3], range(), q].concat();
    }
    [vec![0x30], q].concat()
}

/// A log that takes all the cells that a question can, or one with fewer stations.
pub fn deep(d: &mut Draw, events: usize) -> Frames {
    let stations = d.pick(&[8, 8, 8, 1, 3]);
    let s = Shape { stations, events, questions: 0, ranges: 0, step: d.pick(&[1, 255, 21845]), zero: d.pick(&[0, 4]) };
    let mut fs = made::frames(d, s);
    fs.push(deepest(d, s));
    fs
}

/// A good header but for its station count, 0 or 9, and frames that go with 9 or another one, with fewer events than are given.
pub fn miscounted(d: &mut Draw, events: usize) -> Frames {
    let s = Shape { stations: d.pick(&[1, 8, 9, 9]), events: d.below(events), questions: d.below(3), ranges: 3, step: 1, zero: 0 };
    let mut fs = made::frames(d, s);
    if s.stations < 9 {
        fs[0] = vec![0x10, 0];
    }
    fs
}

/// Logs within the program's limits.
pub fn frames(d: &mut Draw) -> Frames {
    match d.below(18) {
        0..=6 => apart(d, &[1, 1, 1, 1, 2, 15]),
        7..=10 => turns(d, PROGRAM.events, &[true, false, false], [&[4, 4, 4, 4, 1], &[4, 4, 4, 4, 3]]),
        11 | 12 => full(d, PROGRAM.events),
        13 | 14 => deep(d, PROGRAM.events),
        _ => miscounted(d, 9),
    }
}
