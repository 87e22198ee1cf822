//! Every fault that document 01 names.
use Fault::*;

/// The lowest digit aside, the refusal's number. "Other" is the other kind of header than the log's: a second header of that kind, or a
/// length that goes with it. "Panel" is a token 08. "Together" is what two logs are too many of.
#[derive(Clone, Copy, Debug)]
#[repr(u16)]
pub enum Fault {
    LogTooLong = 0x10,
    NoEndOfLine = 0x20,
    OddDigits,
    NotADigit,
    LineUnder2,
    LineOver100,
    CheckByte = 0x30,
    UnknownKind = 0x40,
    NoHeader,
    SecondHeader,
    OtherHeader,
    EventAfterQuestion,
    TooManyEvents,
    Question17,
    EventAfterMessage,
    MessageAfterQuestion,
    TooManyMessages,
    EmptyLog,
    HeaderLength = 0x50,
    OtherHeaderLength,
    NoStation,
    StationsOver8,
    EventLength = 0x60,
    OtherEventLength,
    EventStation,
    OwnEntry = 0x70,
    EntryNotRead,
    ClockAbove,
    FormulaEnds = 0x80,
    BytesAfterFormula,
    UnknownToken,
    FormulaStation,
    PanelEnds,
    PanelStation,
    TokensOver32 = 0x90,
    AtomsOver12,
    PanelsOver12,
    WidthOver16,
    BarsOver16,
    NoSuchQuestion = 0xA0,
    Workspace = 0xB0,
    BarSpace,
    Output = 0xC0,
    CutLength = 0xD0,
    NotConsistent,
    ListTooLong = 0xE0,
    LengthZero,
    LengthOver99,
    LengthPastEnd,
    MessageLength = 0xF0,
    SenderNotThere,
    ReceiverNotThere,
    SentZero,
    SentNotThere,
    ReceivedNotThere,
    SentToSelf,
    SendingNotSeen,
    ClearUnderNot = 0x100,
    ClearUnderAlways,
    ClearJoined,
    StationsTogether = 0x110,
    EventsTogether = 0x120,
    MessagesTogether,
}

/// One more than the largest.
pub const KINDS: usize = 0x130;

pub const ALL: [Fault; 63] = [
    LogTooLong, NoEndOfLine, OddDigits, NotADigit, LineUnder2, LineOver100, CheckByte, UnknownKind, NoHeader, SecondHeader, OtherHeader,
    EventAfterQuestion, TooManyEvents, Question17, EventAfterMessage, MessageAfterQuestion, TooManyMessages, EmptyLog, HeaderLength,
    OtherHeaderLength, NoStation, StationsOver8, EventLength, OtherEventLength, EventStation, OwnEntry, EntryNotRead, ClockAbove,
    FormulaEnds, BytesAfterFormula, UnknownToken, FormulaStation, PanelEnds, PanelStation, TokensOver32, AtomsOver12, PanelsOver12,
    WidthOver16, BarsOver16, NoSuchQuestion, Workspace, BarSpace, Output, CutLength, NotConsistent, ListTooLong, LengthZero, LengthOver99,
    LengthPastEnd, MessageLength, SenderNotThere, ReceiverNotThere, SentZero, SentNotThere, ReceivedNotThere, SentToSelf, SendingNotSeen,
    ClearUnderNot, ClearUnderAlways, ClearJoined, StationsTogether, EventsTogether, MessagesTogether,
];

/// Those that the kind of the header decides, and those of tokens 08.
pub const OF_PANELS: [Fault; 11] = [
    SecondHeader, OtherHeader, HeaderLength, OtherHeaderLength, NoStation, StationsOver8, EventLength, OtherEventLength, PanelEnds,
    PanelStation, PanelsOver12,
];

impl Fault {
    pub fn number(self) -> u8 {
        (self as u16 >> 4) as u8
    }
}

/// A fault and its line, 0 where no one line is at fault.
#[derive(Clone, Copy, Debug)]
pub struct Refusal(pub Fault, pub u32);
