//! Numbers for all that has a place from left to right, by which it is found in each of the layouts.
use super::Shown;

pub struct Slots {
    /// The first of each station's events.
    events: Vec<usize>,
    /// Of all stations, with what they report at the start.
    count: usize,
    /// The first of each question's moments.
    moments: Vec<usize>,
}

/// Numbers that go up by what each item takes.
fn firsts(sizes: impl Iterator<Item = usize>) -> (Vec<usize>, usize) {
    let mut next = 0;
    let firsts = sizes.map(|size| {
        next += size;
        next - size
    });
    (firsts.collect(), next)
}

impl Slots {
    pub fn new(shown: &Shown) -> Slots {
        let (events, count) = firsts(shown.source.log.stations.iter().map(Vec::len));
        let (moments, _) = firsts(shown.answers.iter().map(|(asked, _)| asked.answer.moments.len()));
        Slots { events, count, moments }
    }

    /// The middle of an event.
    pub fn event(&self, station: usize, number: usize) -> usize {
        self.events[station] + number
    }

    /// The gutter before an event.
    pub fn before(&self, station: usize, number: usize) -> usize {
        self.count + self.event(station, number)
    }

    /// The left edge of the picture.
    pub fn edge(&self) -> usize {
        2 * self.count
    }

    /// Where stations' lines begin, and where they end.
    pub fn start(&self) -> usize {
        self.edge() + 1
    }

    pub fn end(&self) -> usize {
        self.edge() + 2
    }

    /// The right edge of the picture.
    pub fn width(&self) -> usize {
        self.edge() + 3
    }

    /// Where the line of a moment passes a station; and behind the last station, where the moment's number stands.
    pub fn passing(&self, (question, moment): (usize, usize), station: usize) -> usize {
        self.edge() + 4 + (self.moments[question] + moment) * (self.events.len() + 1) + station
    }

    pub fn head(&self, moment: (usize, usize)) -> usize {
        self.passing(moment, self.events.len())
    }
}
