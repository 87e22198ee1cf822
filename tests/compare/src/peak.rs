//! How far the made-up logs reach: figures of accepted logs and questions, beside what each has to come to.
use crate::log::{OPERATIONS, PROGRAM, QUESTIONS, STATIONS};
use crate::operations::{HELD, WORKSPACE};
use Peak::*;

#[derive(Clone, Copy, Debug)]
pub enum Peak {
    Stations,
    Events,
    StationEvents,
    Messages,
    Questions,
    LogBytes,
    ListBytes,
    ProgramLogBytes,
    ProgramListBytes,
    Tokens,
    Atoms,
    Width,
    BarCount,
    Held,
    Cells,
    Ceiling,
    Standing,
    Structures,
    Bars,
    RightBars,
    StartRounds,
    Rounds,
    Listed,
    Passes,
}

const EVENTS: usize = OPERATIONS.events;
const MESSAGES: usize = OPERATIONS.messages;

/// The bytes of the longest log and frame list of so many events. A frame of k bytes is k + 1 of the list and, with its check byte and 0A,
/// 2 * k + 3 of the log; k is 34 for a header of kind 11 of 8 stations and 14 for their events, 5 for a message, and 93 for the longest
/// question, 12 ranges and 20 tokens more.
const fn bytes(events: usize) -> [usize; 2] {
    [71 + 31 * events + 13 * MESSAGES + 189 * QUESTIONS, 35 + 15 * events + 6 * MESSAGES + 94 * QUESTIONS]
}

const BYTES: [usize; 2] = bytes(EVENTS);
const PROGRAM_BYTES: [usize; 2] = bytes(PROGRAM.events);

/// What each has to come to: the operations' limits and what follows from them, and rounds that pass two bytes. The bytes of the program
/// are those of a log of no more events than it takes.
/// Structures held come to 36, by the forecast and at a time in the basis. The ceiling is highest where both widths, multiplied and added
/// up over the signs joined as "and", are 92: four two-way ors take 4 + 8 + 16, four ranges more 16 each.
/// A start's first round may add one event, and so may the last but one; the last adds none, and each other adds two or more.
/// A token 07 may take a pass for each message.
pub const WANTED: [(Peak, usize); 24] = [
    (Stations, STATIONS), (Events, EVENTS), (StationEvents, EVENTS), (Messages, MESSAGES), (Questions, QUESTIONS), (LogBytes, BYTES[0]),
    (ListBytes, BYTES[1]), (ProgramLogBytes, PROGRAM_BYTES[0]), (ProgramListBytes, PROGRAM_BYTES[1]), (Tokens, 32), (Atoms, 12),
    (Width, 16), (BarCount, 16), (Held, HELD), (Cells, WORKSPACE), (Ceiling, 92 * (EVENTS + 1) * (EVENTS + 1)), (Standing, HELD),
    (Structures, 16), (Bars, 16), (RightBars, 16), (StartRounds, EVENTS / 2 + 2), (Rounds, 65_536), (Listed, 16), (Passes, MESSAGES),
];

/// The largest figure met, and how often one met what is wanted.
#[derive(Clone, Copy, Default)]
pub struct Reach {
    pub most: usize,
    pub times: usize,
}

#[derive(Default)]
pub struct Peaks([Reach; WANTED.len()]);

impl Peaks {
    pub fn of(&self, peak: Peak) -> Reach {
        self.0[peak as usize]
    }

    pub fn meet(&mut self, figures: &[(Peak, usize)]) {
        for &(peak, figure) in figures {
            let r = &mut self.0[peak as usize];
            r.most = r.most.max(figure);
            r.times += (figure >= WANTED[peak as usize].1) as usize;
        }
    }
}
