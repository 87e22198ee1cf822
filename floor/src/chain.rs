//! Why a question was never true, as steps that can each be looked up in the log.
//!
//! A question is true in one of several ways, by its "or"s. Each way is parts that have to be true at one moment together. A part with
//! "possibly P" wants a moment contained in one of the greatest moments of P, so there is a case for each choice of these. In a case every
//! moment of the way has at least some events of a station and at most some; each step gives one such bound from those before it. The last
//! step says that no moment is left.
use crate::formula::{Aspect, Formula};

/// What rules each way out.
#[derive(Clone, Debug, PartialEq)]
pub struct Why {
    pub ways: Vec<Way>,
}

#[derive(Clone, Debug, PartialEq)]
pub struct Way {
    pub parts: Vec<Part>,
    /// One for each choice of a greatest moment for each part with possibly, the last part's going up first; none where one of these parts
    /// has no moment.
    pub cases: Vec<Case>,
}

/// What has to be true at the moment.
#[derive(Clone, Debug, PartialEq)]
pub enum Part {
    /// The station's value or panel is inside the range, or outside it; a silent station's value is neither.
    Range { inside: bool, aspect: Aspect, station: usize, lo: u16, hi: u16 },
    /// Nothing is on the way.
    Clear { from: usize, to: usize },
    /// From the moment on P can still be true; `asked` is how that was put, possibly P or not always not P. The greatest moments of P are
    /// in the proved line; where there are none, why.
    Possibly { asked: Formula, of: Formula, line: String, moments: Vec<Vec<u8>>, why: Option<Why> },
    /// From the moment on P is never true, asked as not possibly P or as always not P: the moment is contained in none of the greatest
    /// moments of P, which are in the proved line.
    NotPossibly { asked: Formula, of: Formula, line: String, moments: Vec<Vec<u8>> },
}

/// What rules out the moments that are contained in the moments chosen: a number of a part with possibly, and of one of its moments.
#[derive(Clone, Debug, PartialEq)]
pub struct Case {
    pub before: Vec<(usize, usize)>,
    pub steps: Vec<Step>,
    pub end: End,
}

/// A bound on the events of a station, from bounds before it. Before all steps each station has at least 0 events, and at most as many as
/// it has in the log and in each of the moments chosen. Messages go by their number in the log, from 0.
#[derive(Clone, Debug, PartialEq)]
pub enum Step {
    /// At least `from` events of the station; its events `from` to `to` - 1 do not fit its ranges, and `to` does: so at least `to`.
    Fits { station: usize, from: u8, to: u8 },
    /// At least `event` events of the station; the clock of that event has `count` for the other station: so at least `count` of that.
    Seen { station: usize, event: u8, other: usize, count: u8 },
    /// The message is sent, its sender having at least that many events; nothing may be on the way: so at least its receiving event.
    Received { message: usize },
    /// At most `from` events of the station; its events `to` + 1 to `from` do not fit its ranges, and `to` does: so at most `to`.
    FitsLast { station: usize, from: u8, to: u8 },
    /// At most `count` events of the other station; the clock of `event` of the station has more of it: so fewer than `event` events.
    NotSeen { station: usize, event: u8, other: usize, count: u8 },
    /// The message is not received, its receiver having at most fewer events than that, or it never came; nothing may be on the way: so it
    /// is not sent, and the sender has fewer events than its sending event.
    NotSent { message: usize },
}

/// No moment is left.
#[derive(Clone, Debug, PartialEq)]
pub enum End {
    /// At least `from` and at most `to` events of the station, and none of these fits its ranges.
    NoneFits { station: usize, from: u8, to: u8 },
    /// The message is sent and never came; nothing may be on the way.
    NeverCame { message: usize },
    /// At least `least` events of the station and at most `most`, which is fewer.
    Past { station: usize, least: u8, most: u8 },
    /// Every moment left is contained in a greatest moment of a part with not possibly, by their numbers.
    Barred { part: usize, moment: usize },
}
