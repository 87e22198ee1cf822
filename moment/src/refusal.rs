//! A refusal, by name.

/// Its number, 1 to 18, and the line of the log that is at fault, from 1, or 0 where no one line is. Of a frame list the line is the
/// ordinal of the frame at fault; of two logs it is a line of the one refused, which is not told.
#[derive(Clone, Copy, Debug, PartialEq, Eq, Hash)]
pub struct Refusal {
    /// Which fault it is.
    pub number: u8,
    /// Where it is.
    pub line: u32,
}

impl Refusal {
    /// The refusal of a reply that the proved code never gives. No refusal of its own has the number 0.
    pub(crate) const UNPROVED: Refusal = Refusal { number: 0, line: 0 };

    /// What is at fault.
    pub fn name(&self) -> &'static str {
        match self.number {
            0 => "the library is not the proved one, which never replies like this: run `tools/build.sh exports`",
            1 => "the log is too long",
            2 => "the line's form",
            3 => "the line's check byte",
            4 => "the line's kind, or its place, or there are too many of its kind",
            5 => "the header's length or station count",
            6 => "the event's length or station",
            7 => "the event's clock",
            8 => "the question is not one formula, or names a station that is not there",
            9 => "the question is too large",
            10 => "there is no question of this number",
            11 => "the workspace or the bar space is too small",
            12 => "the output is too small",
            13 => "the cut is not one of this log, or not consistent",
            14 => "the frame list",
            15 => "the message",
            16 => "the question asks for moments at which something is on the way",
            17 => "the two logs have more than 8 stations together",
            18 => "the two logs have more than 254 events or 64 messages together",
            _ => "a fault of no known number",
        }
    }
}

impl std::fmt::Display for Refusal {
    fn fmt(&self, f: &mut std::fmt::Formatter) -> std::fmt::Result {
        match self.line {
            0 => write!(f, "refused ({}): {}", self.number, self.name()),
            line => write!(f, "refused ({}) at line {line}: {}", self.number, self.name()),
        }
    }
}

impl std::error::Error for Refusal {}
