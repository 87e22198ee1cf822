//! Reading: lines, frames, and the computation that they give.
use crate::fault::{Fault, Refusal};
use crate::formula::{fits, parse, Token};

pub const STATIONS: usize = 8;
pub const QUESTIONS: usize = 16;

/// The most events and messages that a log may have, and the most bytes of a log and of a frame list.
#[derive(Clone, Copy)]
pub struct Limits {
    pub events: usize,
    pub messages: usize,
    pub log: usize,
    pub list: usize,
}

/// Those of the operations, and of the printing program.
pub const OPERATIONS: Limits = Limits { events: 254, messages: 64, log: 16384, list: 8192 };
pub const PROGRAM: Limits = Limits { events: 127, messages: 64, log: 8192, list: 4096 };

/// A count for each station; those past the last are 0.
pub type Cut = [u8; 8];

pub fn contained(c: &Cut, d: &Cut) -> bool {
    c.iter().zip(d).all(|(x, y)| x <= y)
}

/// What a range looks at: a station's value (01), or its panel (08).
#[derive(Clone, Copy, Debug, PartialEq)]
pub enum Field {
    Value,
    Panel,
}

#[derive(Clone, Copy)]
pub struct Event {
    pub value: u16,
    pub panel: u16,
    pub clock: Cut,
}

impl Event {
    /// The value in the first two bytes, and the panel in the two behind it; where these are not there it is 0.
    fn new(bytes: &[u8], clock: Cut) -> Self {
        let word = |i: usize| bytes.get(i..i + 2).map_or(0, |b| u16::from_be_bytes([b[0], b[1]]));
        Event { value: word(0), panel: word(2), clock }
    }

    pub fn field(&self, field: Field) -> u16 {
        match field {
            Field::Value => self.value,
            Field::Panel => self.panel,
        }
    }
}

/// The bytes of an event's value and panel by the kind of the header, and with a header of the other kind.
pub fn field_bytes(panels: bool) -> [usize; 2] {
    if panels { [4, 2] } else { [2, 4] }
}

/// Sent by an event of one station and received by an event of another, by their numbers; 0 where it never came.
#[derive(Clone, Copy, PartialEq)]
pub struct Message {
    pub sender: usize,
    pub sent: u8,
    pub receiver: usize,
    pub received: u8,
}

/// Event 0 of a station is its initial value and panel with the empty cut.
#[derive(Clone)]
pub struct Log {
    limits: Limits,
    /// The header is of kind 11.
    pub panels: bool,
    pub history: Vec<Vec<Event>>,
    pub events: usize,
    pub messages: Vec<Message>,
    pub questions: Vec<Vec<Token>>,
    pub list: Vec<u8>,
}

impl Log {
    /// A log of which nothing has been read.
    fn new(limits: Limits) -> Self {
        Log { limits, panels: false, history: vec![], events: 0, messages: vec![], questions: vec![], list: vec![] }
    }

    pub fn stations(&self) -> usize {
        self.history.len()
    }

    /// The clock of event k of station j is nowhere above c; there is no such clock past the events read.
    fn below(&self, j: usize, k: usize, c: &Cut) -> Option<bool> {
        self.history[j].get(k).map(|e| contained(&e.clock, c))
    }

    /// A cut of as many bytes as stations, if it is consistent.
    pub fn cut(&self, bytes: &[u8]) -> Result<Cut, Fault> {
        if bytes.len() != self.stations() {
            return Err(Fault::CutLength);
        }
        let mut c = [0; 8];
        c[..bytes.len()].copy_from_slice(bytes);
        if (0..bytes.len()).all(|j| self.below(j, c[j] as usize, &c) == Some(true)) { Ok(c) } else { Err(Fault::NotConsistent) }
    }

    fn header(&mut self, panels: bool, f: &[u8]) -> Result<(), Fault> {
        if self.stations() > 0 {
            return Err(if panels == self.panels { Fault::SecondHeader } else { Fault::OtherHeader });
        }
        let (&n, initial) = f.split_first().ok_or(Fault::HeaderLength)?;
        let ([bytes, other], n) = (field_bytes(panels), n as usize);
        if initial.len() != bytes * n {
            return Err(if initial.len() == other * n { Fault::OtherHeaderLength } else { Fault::HeaderLength });
        }
        if n < 1 {
            return Err(Fault::NoStation);
        }
        if n > STATIONS {
            return Err(Fault::StationsOver8);
        }
        self.panels = panels;
        self.history = initial.chunks(bytes).map(|b| vec![Event::new(b, [0; 8])]).collect();
        Ok(())
    }

    fn event(&mut self, f: &[u8]) -> Result<(), Fault> {
        let n = self.stations();
        if n == 0 {
            return Err(Fault::NoHeader);
        }
        if !self.questions.is_empty() {
            return Err(Fault::EventAfterQuestion);
        }
        if !self.messages.is_empty() {
            return Err(Fault::EventAfterMessage);
        }
        if self.events == self.limits.events {
            return Err(Fault::TooManyEvents);
        }
        let [bytes, other] = field_bytes(self.panels);
        if f.len() != 1 + bytes + n {
            return Err(if f.len() == 1 + other + n { Fault::OtherEventLength } else { Fault::EventLength });
        }
        let (s, (fields, entries)) = (f[0] as usize, f[1..].split_at(bytes));
        if s >= n {
            return Err(Fault::EventStation);
        }
        let mut clock = [0; 8];
        clock[..n].copy_from_slice(entries);
        if clock[s] as usize != self.history[s].len() {
            return Err(Fault::OwnEntry);
        }
        for j in 0..n {
            let k = clock[j] as usize - (j == s) as usize;
            if !self.below(j, k, &clock).ok_or(Fault::EntryNotRead)? {
                return Err(Fault::ClockAbove);
            }
        }
        self.history[s].push(Event::new(fields, clock));
        self.events += 1;
        Ok(())
    }

    fn message(&mut self, f: &[u8]) -> Result<(), Fault> {
        if self.stations() == 0 {
            return Err(Fault::NoHeader);
        }
        if !self.questions.is_empty() {
            return Err(Fault::MessageAfterQuestion);
        }
        if self.messages.len() == self.limits.messages {
            return Err(Fault::TooManyMessages);
        }
        let &[sender, sent, receiver, received] = f else { return Err(Fault::MessageLength) };
        let m = Message { sender: sender as usize, sent, receiver: receiver as usize, received };
        let sending = self.history.get(m.sender).ok_or(Fault::SenderNotThere)?;
        let receiving = self.history.get(m.receiver).ok_or(Fault::ReceiverNotThere)?;
        if m.sender == m.receiver {
            return Err(Fault::SentToSelf);
        }
        if sent == 0 {
            return Err(Fault::SentZero);
        }
        if sent as usize >= sending.len() {
            return Err(Fault::SentNotThere);
        }
        let event = receiving.get(received as usize).ok_or(Fault::ReceivedNotThere)?;
        if received > 0 && event.clock[m.sender] < sent {
            return Err(Fault::SendingNotSeen);
        }
        self.messages.push(m);
        Ok(())
    }

    fn question(&mut self, f: &[u8]) -> Result<(), Fault> {
        if self.stations() == 0 {
            return Err(Fault::NoHeader);
        }
        if self.questions.len() == QUESTIONS {
            return Err(Fault::Question17);
        }
        let q = parse(f, self.stations())?;
        fits(&q)?;
        self.questions.push(q);
        Ok(())
    }

    fn admit(&mut self, f: &[u8]) -> Result<(), Fault> {
        match f[0] {
            0x10 | 0x11 => self.header(f[0] == 0x11, &f[1..]),
            0x20 => self.event(&f[1..]),
            0x25 => self.message(&f[1..]),
            0x30 => self.question(&f[1..]),
            _ => Err(Fault::UnknownKind),
        }?;
        self.list.push(f.len() as u8);
        self.list.extend(f);
        Ok(())
    }

    fn finished(self) -> Result<Log, Refusal> {
        if self.stations() == 0 { Err(Refusal(Fault::EmptyLog, 1)) } else { Ok(self) }
    }

    pub fn read(limits: Limits, data: &[u8]) -> Result<Log, Refusal> {
        if data.len() > limits.log {
            return Err(Refusal(Fault::LogTooLong, 0));
        }
        let (mut log, mut bytes) = (Log::new(limits), [0; 100]);
        for (i, line) in data.split_inclusive(|&b| b == 0x0A).enumerate() {
            frame(line, &mut bytes).and_then(|f| log.admit(f)).map_err(|fault| Refusal(fault, i as u32 + 1))?;
        }
        log.finished()
    }

    pub fn from_list(limits: Limits, list: &[u8]) -> Result<Log, Refusal> {
        let mut log = Log::new(limits);
        for (i, f) in entries(limits, list).map_err(|fault| Refusal(fault, 0))?.into_iter().enumerate() {
            log.admit(f).map_err(|fault| Refusal(fault, i as u32 + 1))?;
        }
        log.finished()
    }
}

/// A frame list's frames.
pub fn entries(limits: Limits, list: &[u8]) -> Result<Vec<&[u8]>, Fault> {
    if list.len() > limits.list {
        return Err(Fault::ListTooLong);
    }
    let (mut frames, mut rest) = (Vec::new(), list);
    while let Some((&k, tail)) = rest.split_first() {
        if k == 0 {
            return Err(Fault::LengthZero);
        }
        if k > 99 {
            return Err(Fault::LengthOver99);
        }
        let (f, after) = tail.split_at_checked(k as usize).ok_or(Fault::LengthPastEnd)?;
        frames.push(f);
        rest = after;
    }
    Ok(frames)
}

fn digit(b: u8) -> Result<u8, Fault> {
    match b {
        b'0'..=b'9' => Ok(b - b'0'),
        b'A'..=b'F' => Ok(b - b'A' + 10),
        _ => Err(Fault::NotADigit),
    }
}

/// The frame of a line, without its check byte.
fn frame<'a>(line: &[u8], bytes: &'a mut [u8; 100]) -> Result<&'a [u8], Fault> {
    let Some((0x0A, digits)) = line.split_last() else { return Err(Fault::NoEndOfLine) };
    if digits.len() % 2 == 1 {
        return Err(Fault::OddDigits);
    }
    if digits.len() < 4 {
        return Err(Fault::LineUnder2);
    }
    if digits.len() > 200 {
        return Err(Fault::LineOver100);
    }
    let mut sum = 0u8;
    for (b, d) in bytes.iter_mut().zip(digits.chunks(2)) {
        *b = digit(d[0])? * 16 + digit(d[1])?;
        sum = sum.wrapping_add(*b);
    }
    if sum == 0 { Ok(&bytes[..digits.len() / 2 - 1]) } else { Err(Fault::CheckByte) }
}

/// A frame as a line, with its check byte.
pub fn line(f: &[u8]) -> Vec<u8> {
    let check = f.iter().fold(0u8, |s, b| s.wrapping_sub(*b));
    let mut out = Vec::with_capacity(2 * f.len() + 3);
    for b in f.iter().chain([&check]) {
        out.extend([b / 16, b % 16].map(|d| b"0123456789ABCDEF"[d as usize]));
    }
    out.push(0x0A);
    out
}
