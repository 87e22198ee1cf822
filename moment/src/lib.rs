//! The moment finder's operations for Rust, over the static library of the proved code: slices in, answers and refusals as Rust types out.
//! Workspace and output are lent here, by the forecast; [`lent`] has the operations for callers who lend their own. docs/FORMAT.md says
//! what a log is, what its questions mean and what is refused.
//!
//! ```
//! // Two stations, three events, and a question: was station 0 at 5 while station 1 was at 1?
//! let log = b"100200000000EE\n200000050100DA\n200100010001DD\n200100020102DA\n3003010000050005010100010001BE\n";
//! for question in 0..moment::read(log)?.questions {
//!     let answer = moment::answer(log, question)?;
//!     assert!(!answer.start);
//!     assert_eq!(answer.moments, [[1, 1]]);
//!     assert!(moment::holds(log, question, &answer.moments[0])?);
//! }
//! assert_eq!(moment::answer(log, 1), Err(moment::Refusal { number: 10, line: 0 }));
//! # Ok::<(), moment::Refusal>(())
//! ```
//!
//! Every input is answered or refused, and nothing panics. The library keeps nothing between calls, so several threads may call at once. A
//! call takes some of the caller's stack: docs/ASSUMPTIONS.md says how much was measured.
#![deny(missing_docs, unsafe_op_in_unsafe_fn)]

pub mod lent;
mod refusal;

pub use lent::MISSING;
pub use refusal::Refusal;

/// The most stations of a log.
pub const STATIONS: usize = 8;
/// The most events of a log.
pub const EVENTS: usize = 254;
/// The most messages of a log.
pub const MESSAGES: usize = 64;
/// The most questions of a log.
pub const QUESTIONS: usize = 16;
/// The most bytes of a log, and of the output of Write and of Merge, which is fixed.
pub const LOG: usize = 16384;
/// The most bytes of a frame list, and of the output of Read, which is fixed.
pub const LIST: usize = 8192;
/// The bytes of bar space, which is fixed.
pub const BARS: usize = 8192;
/// The bytes of an answer line's output, which is fixed.
pub const LINE: usize = 273;
/// No forecast has more cells: an accepted question holds at most 54 structures.
pub const CELLS: usize = 54 * STATIONS * (EVENTS + 1);

/// What Read hands back.
#[derive(Clone, Copy, Debug, PartialEq, Eq)]
pub struct Read {
    /// How many stations the log has.
    pub stations: usize,
    /// How many events.
    pub events: usize,
    /// How many questions.
    pub questions: usize,
    /// The length of the frame list.
    pub list: usize,
}

/// What a question can cost, known before it is asked.
#[derive(Clone, Copy, Debug, PartialEq, Eq)]
pub struct Forecast {
    /// The question's width: no answer lists more moments.
    pub width: usize,
    /// The largest bar count at any token.
    pub bars: usize,
    /// The most structures held at a time.
    pub held: usize,
    /// The bytes of workspace that these take: with one less, Answer and Holds refuse.
    pub cells: usize,
    /// The rounds are never above it.
    pub ceiling: usize,
}

/// A question's answer, and the answer line that it was taken from.
#[derive(Clone, Debug, PartialEq, Eq)]
pub struct Answer {
    /// Whether the question is true before the first event.
    pub start: bool,
    /// The greatest moments at which it is true, each a count of events for each station; empty exactly where it never was true.
    pub moments: Vec<Vec<u8>>,
    /// The rounds of work that it took.
    pub rounds: u32,
    /// The proved code's line, without 0A at its end.
    pub line: String,
}

/// Read's counts.
pub fn read(log: &[u8]) -> Result<Read, Refusal> {
    lent::read(log, &mut [0; LIST])
}

/// The frames of a log, each without its check byte.
pub fn frames(log: &[u8]) -> Result<Vec<Vec<u8>>, Refusal> {
    let mut list = [0; LIST];
    let length = lent::read(log, &mut list)?.list;
    list.get(..length).and_then(parted).ok_or(Refusal::UNPROVED)
}

/// A frame list taken apart, if each frame is whole.
fn parted(mut list: &[u8]) -> Option<Vec<Vec<u8>>> {
    let mut frames = vec![];
    while let [size, rest @ ..] = list {
        let (frame, after) = rest.split_at_checked(*size as usize)?;
        frames.push(frame.to_vec());
        list = after;
    }
    Some(frames)
}

/// A frame list from frames without check bytes. A frame whose length is no byte has the length 0, which Write refuses.
pub fn list(frames: &[Vec<u8>]) -> Vec<u8> {
    frames.iter().flat_map(|f| std::iter::once(u8::try_from(f.len()).unwrap_or(0)).chain(f.iter().copied())).collect()
}

/// The log of a frame list.
pub fn write(list: &[u8]) -> Result<Vec<u8>, Refusal> {
    let mut log = vec![0; LOG];
    let length = lent::write(list, &mut log)?;
    log.truncate(length);
    Ok(log)
}

/// The log that two logs make: the stations of the second numbered on behind those of the first, neither side's clocks knowing the other,
/// and the questions of the first alone. At a moment of both logs the counts of the first stand before those of the second.
///
/// A refusal's line is that of the log refused: of the first if [`read`] refuses it, else of the second; 17 and 18 are of both together.
///
/// ```
/// // A station at 5 after its event, and the question when it is; and a station with an event and no question.
/// let first = b"10010000EF\n2000000501DA\n30010000050005C5\n";
/// let second = b"10010000EF\n2000000101DE\n";
/// let both = moment::merge(first, second)?;
/// assert_eq!(both, b"100200000000EE\n200000050100DA\n200100010001DD\n30010000050005C5\n");
/// assert_eq!(moment::answer(first, 0)?.moments, [[1]]);
/// assert_eq!(moment::answer(&both, 0)?.moments, [[1, 1]]);
/// assert_eq!(moment::merge(first, b""), Err(moment::Refusal { number: 4, line: 1 }));
/// # Ok::<(), moment::Refusal>(())
/// ```
pub fn merge(log: &[u8], second: &[u8]) -> Result<Vec<u8>, Refusal> {
    let mut merged = vec![0; LOG];
    let length = lent::merge(log, second, &mut merged)?;
    merged.truncate(length);
    Ok(merged)
}

/// What a question, numbered from 0, can cost.
pub fn forecast(log: &[u8], question: usize) -> Result<Forecast, Refusal> {
    lent::forecast(log, question)
}

/// The answer to a question, numbered from 0.
pub fn answer(log: &[u8], question: usize) -> Result<Answer, Refusal> {
    let mut workspace = vec![0; forecast(log, question)?.cells];
    let mut out = [0; LINE];
    let length = lent::answer(log, question, &mut workspace, &mut [0; BARS], &mut out)?;
    out.get(..length).and_then(Answer::from_line).ok_or(Refusal::UNPROVED)
}

/// Whether a question, numbered from 0, is true at a cut, which has a byte for each station and has to be consistent. No is false or
/// neither.
pub fn holds(log: &[u8], question: usize, cut: &[u8]) -> Result<bool, Refusal> {
    let mut workspace = vec![0; forecast(log, question)?.cells];
    lent::holds(log, question, cut, &mut workspace, &mut [0; BARS])
}

/// The byte of two hexadecimal digits.
fn byte(digits: &[u8]) -> Option<u8> {
    let [high, low] = digits else { return None };
    let digit = |d: u8| char::from(d).to_digit(16);
    u8::try_from(16 * digit(*high)? + digit(*low)?).ok()
}

impl Answer {
    /// Taken from an answer line: 40, start, count of cuts, the cuts, four bytes of rounds, check byte, 0A.
    fn from_line(line: &[u8]) -> Option<Self> {
        let digits = line.strip_suffix(b"\n")?;
        let bytes = digits.chunks(2).map(byte).collect::<Option<Vec<u8>>>()?;
        let ([0x40, start, listed], rest) = bytes.split_first_chunk()? else { return None };
        let (cuts, [rounds @ .., _]) = rest.split_last_chunk::<5>()?;
        let stations = cuts.len() / usize::from(*listed).max(1);
        Some(Answer {
            start: *start == 1,
            moments: cuts.chunks(stations.max(1)).map(<[u8]>::to_vec).collect(),
            rounds: u32::from_be_bytes(*rounds),
            line: String::from_utf8(digits.to_vec()).ok()?,
        })
    }
}
