//! Both sides of the limits that the operations do not share with the program, and of that of messages: how often the made-up logs met
//! each.
use crate::fault::{Fault, Refusal};
use crate::log::{Limits, Log, OPERATIONS, PROGRAM};
use Side::*;

/// "Most" is the operations' limit and "Program" the program's; "Over" is one more and "Under" one less.
/// Log and List are the bytes given to Read and Write, by which those over the most are refused, and those of the program's are accepted.
/// Read and Write are the bytes of their outputs, of which only the most are accepted. FaultyEvent is an event past the last that there may
/// be, with a fault of its own, and so is FaultyMessage a message. Messages are as many as there may be, and accepted, or one more. Count
/// is that of a station with the most events, in a listed cut, in one that Holds replies to, and in one past these. Cells are more than
/// FIXED_CELLS, just those forecast and one less.
#[derive(Clone, Copy, Debug)]
pub enum Side {
    LogMost,
    LogOver,
    LogProgram,
    LogProgramOver,
    ReadMost,
    ReadUnder,
    ReadProgram,
    ReadProgramUnder,
    LogFaultyEvent,
    LogMessages,
    LogMessagesOver,
    LogFaultyMessage,
    ListMost,
    ListOver,
    ListProgram,
    ListProgramOver,
    WriteMost,
    WriteUnder,
    WriteProgram,
    WriteProgramUnder,
    ListFaultyEvent,
    ListMessages,
    ListMessagesOver,
    ListFaultyMessage,
    CountListed,
    CountHeld,
    CountOver,
    Cells,
    CellsUnder,
}

/// Each with how often it has to be met in 4,000 logs.
pub const WANTED: [(Side, u64); 29] = [
    (LogMost, 10), (LogOver, 10), (LogProgram, 1), (LogProgramOver, 1), (ReadMost, 10), (ReadUnder, 10), (ReadProgram, 10),
    (ReadProgramUnder, 10), (LogFaultyEvent, 10), (LogMessages, 10), (LogMessagesOver, 10), (LogFaultyMessage, 10), (ListMost, 10),
    (ListOver, 10), (ListProgram, 1), (ListProgramOver, 1), (WriteMost, 10), (WriteUnder, 10), (WriteProgram, 10), (WriteProgramUnder, 10),
    (ListFaultyEvent, 10), (ListMessages, 10), (ListMessagesOver, 10), (ListFaultyMessage, 10), (CountListed, 10), (CountHeld, 10),
    (CountOver, 10), (Cells, 1), (CellsUnder, 1),
];

/// What document 01 asked for before there were forecasts: enough for every question of a log within the program's limits.
pub const FIXED_CELLS: usize = 65_536;

#[derive(Default)]
pub struct Sides([usize; WANTED.len()]);

impl Sides {
    pub fn of(&self, side: Side) -> usize {
        self.0[side as usize]
    }

    pub fn meet(&mut self, side: Side, met: bool) {
        self.0[side as usize] += met as usize;
    }

    /// A log given to Read with an output of so many bytes.
    pub fn meet_read<T>(&mut self, log: &[u8], lent: usize, reply: &Result<T, Refusal>) {
        self.meet_moved(LogMost, log.len(), lent, [OPERATIONS, PROGRAM].map(|m| [m.log, m.list]), reply);
        self.meet_counts([LogFaultyEvent, LogMessages, LogMessagesOver, LogFaultyMessage], reply, |m| Log::read(m, log));
    }

    /// A frame list given to Write, likewise.
    pub fn meet_write<T>(&mut self, list: &[u8], lent: usize, reply: &Result<T, Refusal>) {
        self.meet_moved(ListMost, list.len(), lent, [OPERATIONS, PROGRAM].map(|m| [m.list, m.log]), reply);
        self.meet_counts([ListFaultyEvent, ListMessages, ListMessagesOver, ListFaultyMessage], reply, |m| Log::from_list(m, list));
    }

    /// The sides of events and messages. What is one too many is at fault itself if it is refused on its line also where there may be one
    /// more.
    fn meet_counts<T>(&mut self, sides: [Side; 4], reply: &Result<T, Refusal>, read: impl Fn(Limits) -> Result<Log, Refusal>) {
        let (events, messages) = (OPERATIONS.events + 1, OPERATIONS.messages + 1);
        let faulty = |line: u32, limits: Limits| read(limits).is_err_and(|Refusal(_, at)| at == line);
        let met = match reply {
            Ok(_) => [false, read(OPERATIONS).is_ok_and(|log| log.messages.len() == OPERATIONS.messages), false, false],
            Err(Refusal(Fault::TooManyEvents, line)) => [faulty(*line, Limits { events, ..OPERATIONS }), false, false, false],
            Err(Refusal(Fault::TooManyMessages, line)) => [false, false, true, faulty(*line, Limits { messages, ..OPERATIONS })],
            _ => [false; 4],
        };
        sides.into_iter().zip(met).for_each(|(side, met)| self.meet(side, met));
    }

    /// The first eight sides from one on.
    fn meet_moved<T>(&mut self, first: Side, bytes: usize, lent: usize, sizes: [[usize; 2]; 2], reply: &Result<T, Refusal>) {
        let [[most, size], [program, program_size]] = sizes;
        let fault = reply.as_ref().err().map(|Refusal(fault, _)| *fault);
        let (long, small) = (matches!(fault, Some(Fault::LogTooLong | Fault::ListTooLong)), matches!(fault, Some(Fault::Output)));
        let read = fault.is_none() || small;
        let met = [
            bytes == most && !long, bytes == most + 1 && long, bytes == program && read, bytes == program + 1 && read,
            lent == size && fault.is_none(), lent + 1 == size && small, lent == program_size && small, lent + 1 == program_size && small,
        ];
        let sides = &mut self.0[first as usize..];
        sides.iter_mut().zip(met).for_each(|(n, met)| *n += met as usize);
    }
}

