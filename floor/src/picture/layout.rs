//! Where events stand in the picture, from left to right.
//!
//! Time goes to the right in columns. What the stations report at the start is in column 0; an event stands right of all events that it has
//! seen, so that every arrow goes to the right. The line of a moment that is chosen is straight, and so are those of listed moments that
//! can come before or after it: what comes after such a moment stands right of all that comes before it. So there are several layouts, each
//! an order that the messages allow. Otherwise an event stands as far left as it can, but a station's last one before a straight line as
//! far right as it can: near the line. Beyond that, which of two events that no arrows join stands further left says nothing. There are at
//! most as many columns as events, and one.
//!
//! Behind each column is a gutter, in which no station has an event: cut lines pass the stations there, and arrows those stations that they
//! do not touch.
use super::Shown;
use crate::log::{Cut, Event, Log};

pub struct Layout {
    /// For each station the column of each of its events.
    columns: Vec<Vec<usize>>,
    /// The middle of each column.
    middles: Vec<f64>,
    /// The middle of the gutter behind each column.
    gutters: Vec<f64>,
}

/// The width of a gutter: at least so that lines in it can be told apart, and wider while the whole is narrow.
const NARROW: f64 = 30.0;
const WIDE: f64 = 110.0;
const WHOLE: f64 = 980.0;
/// What is left free before column 0, and behind the last gutter.
const MARGIN: f64 = 18.0;
/// The most layouts of a page. Moments that none of them has straight are shown in the first.
const LAYOUTS: usize = 16;

/// The layouts, at least one, and for each question which of them each of its moments is straight in.
pub fn layouts(shown: &Shown) -> (Vec<Layout>, Vec<Vec<usize>>) {
    let moments = || shown.answers.iter().map(|(asked, _)| &asked.answer.moments);
    let mut straights: Vec<Vec<&Cut>> = vec![];
    for moment in moments().flatten() {
        if straights.len() < LAYOUTS && !straights.iter().flatten().any(|other| *other == &moment[..]) {
            straights.push(straight(moment, moments().flatten()));
        }
    }
    let chosen = |moment: &Vec<u8>| straights.iter().position(|straight| straight.contains(&&moment[..])).unwrap_or(0);
    let chosen = moments().map(|of_question| of_question.iter().map(chosen).collect()).collect();
    let straights = if straights.is_empty() { vec![vec![]] } else { straights };
    (straights.iter().map(|straight| Layout::new(shown, straight)).collect(), chosen)
}

/// A moment, and each one of the others that contains all those taken before it or is contained in them.
fn straight<'a>(moment: &'a Cut, others: impl Iterator<Item = &'a Vec<u8>>) -> Vec<&'a Cut> {
    let contained = |one: &Cut, other: &Cut| one.iter().zip(other).all(|(a, b)| a <= b);
    let mut taken = vec![moment];
    for other in others {
        if taken.iter().all(|one| contained(one, other) || contained(other, one)) {
            taken.push(other);
        }
    }
    taken
}

impl Layout {
    fn new(shown: &Shown, straight: &[&Cut]) -> Layout {
        let columns = columns(&shown.source.log, straight);
        let mut widths = vec![0.0_f64; 1 + columns.iter().flatten().max().copied().unwrap_or(0)];
        for (s, of_station) in columns.iter().enumerate() {
            for (k, &column) in of_station.iter().enumerate() {
                widths[column] = widths[column].max(shown.wanted(s, k));
            }
        }
        let gutter = ((WHOLE - widths.iter().sum::<f64>()) / widths.len() as f64).clamp(NARROW, WIDE).floor();
        let (mut middles, mut gutters, mut x) = (vec![], vec![], MARGIN - gutter / 2.0);
        for width in widths {
            let width = width.ceil();
            middles.push(x + gutter / 2.0 + width / 2.0);
            x += width + gutter;
            gutters.push(x);
        }
        Layout { columns, middles, gutters }
    }

    pub fn column(&self, station: usize, number: usize) -> usize {
        self.columns[station][number]
    }

    /// The middle of an event.
    pub fn x(&self, station: usize, number: usize) -> f64 {
        self.middles[self.column(station, number)]
    }

    /// The gutter behind a column.
    pub fn gutter(&self, column: usize) -> f64 {
        self.gutters[column]
    }

    /// The gutter before a column, or the left edge.
    pub fn left(&self, column: usize) -> f64 {
        column.checked_sub(1).map_or(0.0, |before| self.gutters[before])
    }

    /// How many columns there are.
    pub fn len(&self) -> usize {
        self.gutters.len()
    }

    pub fn width(&self) -> f64 {
        self.gutters[self.len() - 1] + MARGIN
    }

    /// For each station the column behind which the line of a cut passes it: behind the station's last event in the cut and before its next
    /// one. The line is straight where it can be, and otherwise goes aside as little as it can.
    pub fn passed(&self, cut: &Cut) -> Vec<usize> {
        let last = self.len() - 1;
        let free = |(s, &k): (usize, &u8)| {
            let columns = &self.columns[s];
            (columns[k as usize], columns.get(k as usize + 1).map_or(last, |next| next - 1))
        };
        let free: Vec<(usize, usize)> = cut.iter().enumerate().map(free).collect();
        let aside = |column: usize| free.iter().map(|&(from, to)| from.saturating_sub(column) + column.saturating_sub(to)).sum::<usize>();
        let straight = (0..=last).min_by_key(|&column| aside(column)).unwrap_or(0);
        free.iter().map(|&(from, to)| straight.clamp(from, to)).collect()
    }
}

/// The column of each event. By the number of straight moments that it comes after, and then by its line, each event comes after all that
/// it has seen.
fn columns(log: &Log, straight: &[&Cut]) -> Vec<Vec<usize>> {
    let after = |s: usize, k: usize| straight.iter().filter(|cut| (cut[s] as usize) < k).count();
    let of_station = |s: usize| (1..).zip(&log.stations[s][1..]).map(move |(k, event)| (s, k, event));
    let mut events: Vec<(usize, usize, &Event)> = (0..log.stations.len()).flat_map(of_station).collect();
    events.sort_by_key(|&(s, k, event)| (after(s, k), event.line));
    let mut columns: Vec<Vec<usize>> = log.stations.iter().map(|events| vec![0; events.len()]).collect();
    let mut last = 0;
    for part in events.chunk_by(|a, b| after(a.0, a.1) == after(b.0, b.1)) {
        last = leftmost(part, last, &mut columns);
        if after(part[0].0, part[0].1) < straight.len() {
            rightmost(part, last, &mut columns);
        }
    }
    columns
}

/// What an event has seen last of each station: for its own that is the event before it.
fn seen(s: usize, event: &Event) -> impl Iterator<Item = (usize, usize)> + '_ {
    event.clock.iter().enumerate().map(move |(j, &k)| (j, k as usize - usize::from(j == s)))
}

/// Each event as far left as it can stand behind a column; the last column taken.
fn leftmost(part: &[(usize, usize, &Event)], behind: usize, columns: &mut [Vec<usize>]) -> usize {
    let mut last = behind;
    for &(s, k, event) in part {
        let column = 1 + seen(s, event).map(|(j, m)| columns[j][m]).max().unwrap_or(0).max(behind);
        columns[s][k] = column;
        last = last.max(column);
    }
    last
}

/// Each station's last event moved as far right as it can stand, up to a column.
fn rightmost(part: &[(usize, usize, &Event)], last: usize, columns: &mut [Vec<usize>]) {
    let mut most: Vec<Vec<usize>> = columns.iter().map(|of_station| vec![last; of_station.len()]).collect();
    let mut moved = vec![false; columns.len()];
    for &(s, k, event) in part.iter().rev() {
        if !std::mem::replace(&mut moved[s], true) {
            columns[s][k] = most[s][k];
        }
        for (j, m) in seen(s, event) {
            most[j][m] = most[j][m].min(columns[s][k] - 1);
        }
    }
}
