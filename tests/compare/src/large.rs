//! Made-up logs past the program's limits, and at the operations'.
use crate::draw::Draw;
use crate::ends::{self, Frames};
use crate::log::{OPERATIONS, PROGRAM, QUESTIONS, STATIONS};
use crate::made::{self, word, Clocks, Shape};

const MOST: usize = OPERATIONS.events;

fn shape(d: &mut Draw, stations: usize, events: usize, questions: usize) -> Shape {
    Shape { stations, events, questions, ranges: 4, step: d.pick(&[1, 1, 255, 21845]), zero: d.pick(&[0, 2, 4]) }
}

/// More events than the program takes, damaged or not.
fn drawn(d: &mut Draw) -> Frames {
    let (stations, questions, some) = (1 + d.below(STATIONS), d.pick(&[0, 1, 1, 2]), d.below(MOST - PROGRAM.events));
    let events = d.pick(&[PROGRAM.events + 1 + some, PROGRAM.events + 1 + some, PROGRAM.events + 1, MOST, MOST + 1]);
    let s = shape(d, stations, events, questions);
    let mut fs = made::frames(d, s);
    if d.below(3) == 0 {
        made::damage(d, s, &mut fs);
    }
    fs
}

/// One event too many, which is often at fault itself: by its length, its station or its clock.
fn one_more(d: &mut Draw) -> Frames {
    let (stations, questions) = (1 + d.below(STATIONS), d.below(2));
    let s = shape(d, stations, MOST + 1, questions);
    let mut fs = made::frames(d, s);
    let event = &mut fs[MOST + 1];
    match d.below(5) {
        0 => event.truncate(1 + d.below(3 + stations)),
        1 => event.push(0),
        2 => event[1] = stations as u8,
        3 => event[4 + d.below(stations)] ^= 128,
        _ => {}
    }
    fs
}

/// All events at one station, as many as there may be.
fn alone(d: &mut Draw) -> Frames {
    let (stations, questions) = (1 + d.below(STATIONS), 1 + d.below(2));
    let s = shape(d, stations, MOST, 0);
    let (j, mut clocks, mut fs) = (d.below(stations), Clocks::new(stations), vec![made::header(d, s)]);
    for _ in 0..MOST {
        fs.push([vec![0x20, j as u8], word(d.below(4) * s.step).to_vec(), clocks.next(j, j)].concat());
    }
    for _ in 0..questions {
        let ranges = 1 + d.below(s.ranges);
        fs.push([vec![0x30], made::formula(d, s, ranges)].concat());
    }
    fs
}

/// The least and the most bytes of a formula: one range, or 12 of them and 20 tokens more.
const FORMULA: [usize; 2] = [6, 92];

/// A question whose formula has so many bytes: ranges joined by or, and "not" before them.
fn question(d: &mut Draw, s: Shape, bytes: usize) -> Vec<u8> {
    let ranges = ((bytes + 1) / 7).min(12);
    let mut f = [vec![0x30], vec![2; bytes + 1 - 7 * ranges], vec![4; ranges - 1]].concat();
    (0..ranges).for_each(|_| f.extend(made::range(d, s)));
    f
}

/// A log or a frame list of just the most bytes that the program takes, or one more.
fn sized(d: &mut Draw) -> Frames {
    let (stations, events, over) = (6 + d.below(3), MOST - d.below(3), d.below(2));
    let s = shape(d, stations, events, 0);
    let mut fs = made::frames(d, s);
    // What is left for questions; a formula of k bytes takes `times` * k + `beside` of it.
    let (left, times, beside) = match d.below(2) {
        0 => (PROGRAM.log + over - made::lines(&fs).len(), 2, 5),
        _ => (PROGRAM.list + over - made::list(&fs).len(), 1, 2),
    };
    let [least, most] = FORMULA;
    let fits = |k: &usize| (left - beside * k) % times == 0 && (least * k..=most * k).contains(&((left - beside * k) / times));
    let all: Vec<usize> = (1..=QUESTIONS).filter(fits).collect();
    let questions = d.pick(&all);
    let mut bytes = (left - beside * questions) / times;
    for more in (0..questions).rev() {
        let (low, high) = (bytes.saturating_sub(most * more).max(least), (bytes - least * more).min(most));
        let k = low + d.below(high - low + 1);
        fs.push(question(d, s, k));
        bytes -= k;
    }
    fs
}

pub fn frames(d: &mut Draw) -> Frames {
    match d.below(54) {
        0..=9 => drawn(d),
        10..=20 => one_more(d),
        21..=29 => alone(d),
        30..=39 => sized(d),
        40..=44 => ends::turns(d, MOST, &[true, true, false], [&[1, 1, 1, 4], &[1, 1, 3, 4]]),
        45..=47 => ends::full(d, MOST),
        48..=50 => ends::deep(d, MOST),
        51 => ends::apart(d, &[MOST / STATIONS]),
        _ => ends::miscounted(d, MOST),
    }
}
