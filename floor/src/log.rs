//! A log that the proved code has accepted, taken apart: stations, events, messages and questions, each with its line.
use crate::formula::{Aspect, Formula};
use moment::Refusal;

/// What a station reports with an event, or before its first one.
#[derive(Clone, Debug, PartialEq)]
pub struct Event {
    pub value: u16,
    pub panel: u16,
    /// For each station how many of its events lie before this one or are it.
    pub clock: Vec<u8>,
    /// The line of the log, from 1.
    pub line: usize,
}

impl Event {
    pub fn of(&self, aspect: Aspect) -> u16 {
        match aspect {
            Aspect::Value => self.value,
            Aspect::Panel => self.panel,
        }
    }
}

/// Sent with an event of one station and received with one of another, by their numbers from 1; 0 where it never came.
#[derive(Clone, Debug, PartialEq)]
pub struct Message {
    pub sender: usize,
    pub sent: u8,
    pub receiver: usize,
    pub received: u8,
    pub line: usize,
}

#[derive(Clone, Debug, PartialEq)]
pub struct Question {
    pub formula: Formula,
    pub line: usize,
}

#[derive(Clone, Debug, PartialEq)]
pub struct Log {
    /// The bytes that were read.
    pub bytes: Vec<u8>,
    /// Whether events carry panels.
    pub panels: bool,
    /// For each station its events in order; the one of number 0 is what it reports before the first.
    pub stations: Vec<Vec<Event>>,
    pub messages: Vec<Message>,
    pub questions: Vec<Question>,
}

/// Count of events for each station.
pub type Cut = [u8];

impl Log {
    /// What the proved Read accepts, or its refusal.
    pub fn read(bytes: &[u8]) -> Result<Log, Refusal> {
        let frames = moment::frames(bytes)?;
        let panels = frames[0][0] == 0x11;
        let mut log = Log { bytes: bytes.to_vec(), panels, stations: vec![], messages: vec![], questions: vec![] };
        for (line, frame) in (1..).zip(&frames) {
            log.take(frame, line);
        }
        Ok(log)
    }

    /// One frame, of a log that was accepted.
    fn take(&mut self, frame: &[u8], line: usize) {
        let size = if self.panels { 4 } else { 2 };
        let word = |at: usize| u16::from_be_bytes([frame[at], frame[at + 1]]);
        let report = |at: usize, clock: Vec<u8>| Event { value: word(at), panel: if size == 4 { word(at + 2) } else { 0 }, clock, line };
        match frame[0] {
            0x10 | 0x11 => {
                let n = frame[1] as usize;
                self.stations = (0..n).map(|s| vec![report(2 + size * s, vec![0; n])]).collect();
            }
            0x20 => {
                let event = report(2, frame[2 + size..].to_vec());
                self.stations[frame[1] as usize].push(event);
            }
            0x25 => self.messages.push(Message {
                sender: frame[1] as usize,
                sent: frame[2],
                receiver: frame[3] as usize,
                received: frame[4],
                line,
            }),
            _ => self.questions.push(Question { formula: Formula::from_bytes(&frame[1..]).expect("one formula"), line }),
        }
    }

    /// The counts of all events.
    pub fn full(&self) -> Vec<u8> {
        self.stations.iter().map(|s| (s.len() - 1) as u8).collect()
    }

    /// The last event of a station in a cut, or what it reports before its first.
    pub fn last(&self, station: usize, cut: &Cut) -> &Event {
        &self.stations[station][cut[station] as usize]
    }

    /// The messages on the way at a cut: sent and not received.
    pub fn on_the_way(&self, cut: &Cut) -> Vec<&Message> {
        let sent = |m: &&Message| m.sent <= cut[m.sender];
        let received = |m: &Message| m.received > 0 && m.received <= cut[m.receiver];
        self.messages.iter().filter(sent).filter(|m| !received(m)).collect()
    }

    /// The events that an event has seen and that no other event which it has seen tells it of: with its own station's last one these give
    /// its clock. Each is a station and the number of its event.
    pub fn directly_seen(&self, station: usize, number: usize) -> Vec<(usize, u8)> {
        let clock = &self.stations[station][number].clock;
        let before: Vec<&[u8]> = (0..clock.len())
            .map(|j| {
                let k = if j == station { number - 1 } else { clock[j] as usize };
                &self.stations[j][k].clock[..]
            })
            .collect();
        let implied = |j: usize| (0..clock.len()).any(|i| i != j && before[i][j] >= clock[j]);
        (0..clock.len()).filter(|&j| j != station && clock[j] > 0 && !implied(j)).map(|j| (j, clock[j])).collect()
    }

    /// The same log with one question in place of its own.
    pub fn with_question(&self, formula: &Formula) -> Result<Vec<u8>, Refusal> {
        let mut frames = moment::frames(&self.bytes)?;
        frames.retain(|f| f[0] != 0x30);
        frames.push([vec![0x30], formula.bytes()].concat());
        moment::write(&moment::list(&frames))
    }
}
