//! Sets and pairs of them, by what holds of raising a cut to the least cut of a set that contains it:
//!
//! - an event's clock is raised to the event's row, a cut of the set is not raised, and a join is raised to the join of what its parts are;
//! - a range raises a cut to its join with the clock of one event: the first of the station, from the cut's count on, with such a value,
//!   or such a panel;
//! - "nothing on the way" does so too, with an event of the receiver that follows from the cut's count of the sender.
//!
//! So where one side of a pair is a range, each half round joins the cut with one clock or with one row of the other side, and through
//! which events it goes depends on the count of the range's station alone. The rounds are worked out once for each count, and a start
//! looks up what it comes to and when. A pair of other sets is raised station by station; a right half that changes nothing is the last.
use super::cut::{contained, count, join, Cut, NONE};
use super::read::Log;
use compare::formula::SILENT;

/// How many numbers two bytes have, which is none of them.
const NUMBERS: u32 = 1 << 16;

/// The cuts where a station's value, or its panel, is one of `many` numbers from `from` on, which go through zero, and not `except`. So are
/// those where it is inside a range, and those where it is outside; a silent value is neither.
#[derive(Clone, Copy)]
pub struct Range {
    pub panel: bool,
    pub station: usize,
    from: u16,
    many: u32,
    except: u32,
}

impl Range {
    /// All cuts: every panel is there.
    pub const ALL: Self = Range::new(true, 0, 0, u16::MAX, true);

    /// From lo to hi, through zero if lo is above hi, or the numbers outside.
    pub const fn new(panel: bool, station: usize, lo: u16, hi: u16, sign: bool) -> Self {
        let inside = hi.wrapping_sub(lo) as u32 + 1;
        let (from, many) = if sign { (lo, inside) } else { (hi.wrapping_add(1), NUMBERS - inside) };
        Range { panel, station, from, many, except: if panel { NUMBERS } else { SILENT as u32 } }
    }

    pub fn has(&self, number: u16) -> bool {
        ((number.wrapping_sub(self.from) as u32) < self.many) & (number as u32 != self.except)
    }

    /// What it looks at: the station's values or its panels, the initial one first.
    pub fn numbers<'l>(&self, log: &'l Log) -> &'l [u16] {
        log.fields(self.station, self.panel)
    }
}

/// A set that is not empty, with bars. Row 0 is the least cut; then a row for each event, station by station.
#[derive(Default)]
pub struct Structure {
    /// If the set is a range, its rows are laid once they are asked for.
    pub range: Option<Range>,
    pub laid: bool,
    pub rows: Vec<Cut>,
    pub bars: Vec<Cut>,
}

/// The rounds that a cut of the other side goes through, for each count at the range's station; 255 stands for none. The first two are also
/// the slots of a pair of other sets, one for each event and station.
struct Tables {
    above: [Cut; SLOTS],
    under: [Cut; SLOTS],
    kept: [Cut; COUNTS],
    rounds: [u32; COUNTS],
}

const COUNTS: usize = 256;
const SLOTS: usize = 512;

impl Tables {
    fn put(&mut self, k: u8, e: &Entry) {
        let k = k as usize;
        (self.above[k], self.under[k], self.kept[k], self.rounds[k]) = (e.above, e.under, e.kept, e.rounds);
    }

    fn get(&self, k: u8) -> Entry {
        let k = k as usize;
        Entry { above: self.above[k], under: self.under[k], kept: self.kept[k], rounds: self.rounds[k] }
    }
}

/// The rounds for one count. The cut is joined with what is above to give the last round's. The round before gives the join of what is
/// under with the start and, if it is kept (all ones), with the cut. One round is added if these differ.
#[derive(Clone, Copy)]
struct Entry {
    above: Cut,
    under: Cut,
    kept: Cut,
    rounds: u32,
}

impl Entry {
    /// The number is in the range: nothing is joined.
    const SETTLED: Self = Entry { above: 0, under: 0, kept: 0, rounds: 1 };

    /// None is met in a round.
    const fn none(round: u32) -> Self {
        Entry { above: NONE, under: 0, kept: 0, rounds: round - 1 }
    }
}

pub struct Sets<'a> {
    pub log: &'a Log,
    /// Those of all pairs so far.
    pub rounds: u32,
    tables: Tables,
}

impl<'a> Sets<'a> {
    pub fn new(log: &'a Log) -> Self {
        Sets { log, rounds: 0, tables: Tables { above: [0; SLOTS], under: [0; SLOTS], kept: [0; COUNTS], rounds: [0; COUNTS] } }
    }

    /// Lays the rows of a range.
    pub fn lay(&mut self, s: &mut Structure) {
        let (Some(range), false) = (s.range, s.laid) else { return };
        s.laid = true;
        let (log, next, mut clock) = (self.log, &mut self.tables.above, NONE);
        let (numbers, clocks) = (range.numbers(log), log.rows(&log.starts, range.station));
        for k in (1..numbers.len()).rev() {
            if range.has(numbers[k]) {
                clock = clocks[k - 1];
            }
            next[k] = clock;
        }
        next[0] = if range.has(numbers[0]) { 0 } else { clock };
        for (c, &start) in s.rows.iter_mut().zip(&log.starts) {
            *c = join(start, next[count(start, range.station) as usize]);
        }
    }

    /// Lays the rows of the cuts with nothing on the way from one station to another.
    pub fn lay_clear(&mut self, sender: usize, receiver: usize, rows: &mut [Cut]) {
        let (log, mut due) = (self.log, [0u8; COUNTS]);
        for &[i, sent, j, received] in &log.messages {
            if (i as usize, j as usize) == (sender, receiver) {
                let entry = &mut due[sent as usize];
                *entry = (*entry).max(received.wrapping_sub((received == 0) as u8));
            }
        }
        let (events, clocks) = (log.rows(&log.starts, sender).len(), log.rows(&log.starts, receiver));
        (1..=events).for_each(|x| due[x] = due[x].max(due[x - 1]));
        // By the sender's count, from the last: what is due, and if its event has seen a later sending, what is due by that.
        let next = &mut self.tables.above;
        for x in (0..=events).rev() {
            next[x] = match due[x] {
                0 => 0,
                255 => NONE,
                k => {
                    let (clock, y) = (clocks[k as usize - 1], count(clocks[k as usize - 1], sender) as usize);
                    if y <= x { clock } else { next[y] }
                }
            };
        }
        for (c, &start) in rows.iter_mut().zip(&log.starts) {
            *c = join(start, next[count(start, sender) as usize]);
        }
    }

    /// The greatest cut: later rows of a station contain the earlier ones.
    pub fn greatest(&mut self, s: &mut Structure) -> Cut {
        self.lay(s);
        let last = |j: usize| self.log.rows(&s.rows, j).iter().rfind(|&&r| r != NONE);
        (0..self.log.stations).filter_map(last).fold(s.rows[0], |g, &r| join(g, r))
    }

    /// Whether the greatest cut is contained in a bar.
    pub fn barred(&mut self, s: &mut Structure) -> bool {
        !s.bars.is_empty() && {
            let top = self.greatest(s);
            s.bars.iter().any(|&b| contained(top, b))
        }
    }

    /// Leaves all cuts contained in the greatest, no bars.
    pub fn lower(&mut self, s: &mut Structure) {
        let top = self.greatest(s);
        s.range = None;
        s.bars.clear();
        for (c, &start) in s.rows.iter_mut().zip(&self.log.starts) {
            *c = if contained(start, top) { start } else { NONE };
        }
    }

    /// The rows of a pair. Those of the left are laid. Not put into its caller, so that its instructions can be told.
    #[inline(never)]
    pub fn intersect(&mut self, left: &Structure, right: &Structure, out: &mut [Cut]) {
        match (left.range, right.range) {
            (_, Some(range)) => self.right_range(&left.rows, range, out),
            (Some(range), None) => self.left_range(range, &right.rows, out),
            (None, None) => self.any(&left.rows, &right.rows, out),
        }
    }

    /// A pair whose right set is a range.
    fn right_range(&mut self, left: &[Cut], range: Range, out: &mut [Cut]) {
        let (log, station) = (self.log, range.station);
        let (numbers, rows, clocks) = (range.numbers(log), log.rows(left, station), log.rows(&log.starts, station));
        let (t, mut next) = (&mut self.tables, Entry::none(1));
        t.put(255, &next);
        for k in (1..numbers.len()).rev() {
            if !range.has(numbers[k]) {
                t.put(k as u8, &next);
                continue;
            }
            t.put(k as u8, &Entry::SETTLED);
            let row = rows[k - 1];
            let up = t.get(count(row, station));
            next = if row == NONE {
                Entry::none(2)
            } else if up.above == 0 {
                Entry { above: row, under: clocks[k - 1], kept: Cut::MAX, rounds: 2 }
            } else {
                Entry { under: join(row, up.under), rounds: up.rounds + 1, ..up }
            };
        }
        t.put(0, if range.has(numbers[0]) { &Entry::SETTLED } else { &next });
        let (t, mut rounds) = (&self.tables, 0);
        for ((c, &l), &start) in out.iter_mut().zip(left).zip(&log.starts) {
            let k = count(l, station) as usize;
            *c = join(l, t.above[k]);
            let before = join(join(l & t.kept[k], start), t.under[k]);
            rounds += t.rounds[k] + (before < *c) as u32;
        }
        self.rounds += rounds;
    }

    /// A pair whose left set is a range. Here what is under is the row that the first round joins, by the start's count.
    fn left_range(&mut self, range: Range, right: &[Cut], out: &mut [Cut]) {
        let (log, station) = (self.log, range.station);
        let (numbers, rows) = (range.numbers(log), log.rows(right, station));
        let none = Entry { under: NONE, ..Entry::none(2) };
        let (t, mut next) = (&mut self.tables, none);
        t.put(255, &Entry::none(1));
        for k in (1..numbers.len()).rev() {
            if !range.has(numbers[k]) {
                t.put(k as u8, &next);
                continue;
            }
            let row = rows[k - 1];
            t.put(k as u8, &Entry { under: row, ..Entry::SETTLED });
            let up = t.get(count(row, station));
            next = if row == NONE {
                none
            } else {
                Entry { above: if up.above == 0 { row } else { up.above }, under: row, kept: 0, rounds: up.rounds + 1 }
            };
        }
        t.put(0, &if range.has(numbers[0]) { Entry { under: right[0], ..Entry::SETTLED } } else { next });
        let (t, mut rounds) = (&self.tables, 0);
        for ((c, &r), &start) in out.iter_mut().zip(right).zip(&log.starts) {
            let first = join(r, t.under[count(start, station) as usize]);
            let k = count(first, station) as usize;
            *c = join(first, t.above[k]);
            rounds += t.rounds[k] + (start < first) as u32;
        }
        self.rounds += rounds;
    }

    /// A pair of any two sets. Both are put in slots, row 0 again before each station's, so that a count of 0 is no special case. What a
    /// start comes to follows from its left row, which is often that of the start before.
    fn any(&mut self, left: &[Cut], right: &[Cut], out: &mut [Cut]) {
        let (log, Tables { above: lefts, under: rights, .. }) = (self.log, &mut self.tables);
        let mut places = [0; 8];
        for j in 0..log.stations {
            let (place, events) = (log.place(j), log.rows(left, j).len());
            for (rows, slots) in [(left, &mut *lefts), (right, &mut *rights)] {
                slots[place] = rows[0];
                slots[place + 1..][..events].copy_from_slice(log.rows(rows, j));
            }
            places[j] = place;
        }
        let raise = |slots: &[Cut; SLOTS], c: Cut| {
            let c = c.to_le_bytes();
            (0..8).fold(0, |d, j| join(d, slots[(places[j] + c[j] as usize) % SLOTS]))
        };
        let go = |mut l: Cut| {
            for round in 1.. {
                let r = raise(rights, l);
                if r == NONE || r == l {
                    return (r, round + (r != NONE) as u32);
                }
                l = raise(lefts, r);
                if l == NONE || l == r {
                    return (l, round + 1);
                }
            }
            unreachable!()
        };
        let (mut last, mut became, mut rounds) = (NONE, (NONE, 1), 0);
        for ((c, &l), &start) in out.iter_mut().zip(left).zip(&log.starts) {
            if l != last {
                (last, became) = (l, if l == NONE { (NONE, 1) } else { go(l) });
            }
            *c = became.0;
            rounds += became.1 - (became.0 == start) as u32;
        }
        self.rounds += rounds;
    }
}
