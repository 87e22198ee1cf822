//! Reading: sixteen digits are decoded at once, and clocks are compared as whole cuts.
use super::cut::{contained, count, decoded, join, Cut};
use compare::log::{Limits, QUESTIONS, STATIONS};

/// A refusal's number and line.
pub type Refusal = (u8, u16);

/// The most bytes that a line carries, and a place for what is decoded past them.
const LINE: usize = 100;
type Frame = [u8; LINE + 8];

/// Sender, its event, receiver, its event or 0.
pub type Message = [u8; 4];

/// An accepted log.
pub struct Log {
    pub stations: usize,
    /// The empty cut, then the clocks of the events, station by station.
    pub starts: Vec<Cut>,
    /// How many events there are at stations before each.
    before: [usize; STATIONS + 1],
    /// Each station's initial value and those of its events; then likewise its panels.
    fields: [Vec<u16>; 2],
    pub messages: Vec<Message>,
    /// The questions' formulas, one after the other, and where each ends.
    formulas: Vec<u8>,
    ends: Vec<usize>,
}

impl Log {
    pub fn questions(&self) -> usize {
        self.ends.len()
    }

    pub fn formula(&self, q: usize) -> &[u8] {
        &self.formulas[if q == 0 { 0 } else { self.ends[q - 1] }..self.ends[q]]
    }

    /// A station's initial value and those of its events, or its panels.
    pub fn fields(&self, station: usize, panel: bool) -> &[u16] {
        &self.fields[panel as usize][self.place(station)..self.place(station + 1)]
    }

    /// Where a station's values begin, and its panels: it has one more than events.
    pub fn place(&self, station: usize) -> usize {
        self.before[station] + station
    }

    /// Of the rows of a set, those of a station's events.
    pub fn rows<'r>(&self, rows: &'r [Cut], station: usize) -> &'r [Cut] {
        &rows[self.before[station] + 1..=self.before[station + 1]]
    }
}

/// Every other byte of eight, so that four sums stand side by side; the highest of these times ones is the sum of all.
const EVEN: u64 = 0x00FF_00FF_00FF_00FF;
const ONES: u64 = 0x0001_0001_0001_0001;

/// Decodes the first line, and hands back its bytes and the lines after it; else the number of the refusal.
fn line<'a>(rest: &'a [u8], frame: &mut Frame) -> Result<(usize, &'a [u8]), u8> {
    let (mut n, mut sum) = (0, 0);
    while n <= LINE {
        let chars = &rest[2 * n..];
        let (bytes, digits) = decoded(chars.first_chunk().copied().unwrap_or_else(|| {
            let mut last = [0; 16];
            last[..chars.len()].copy_from_slice(chars);
            last
        }));
        let bytes = if digits < 16 { bytes & !(u64::MAX << (4 * digits)) } else { bytes };
        frame[n..n + 8].copy_from_slice(&bytes.to_le_bytes());
        sum += (bytes & EVEN) + (bytes >> 8 & EVEN);
        n += digits / 2;
        if digits < 16 {
            let formed = digits % 2 == 0 && 2 <= n && n <= LINE && rest.get(2 * n) == Some(&0x0A);
            return if !formed { Err(2) } else if sum.wrapping_mul(ONES) >> 48 & 255 != 0 { Err(3) } else { Ok((n, &rest[2 * n + 1..])) };
        }
    }
    Err(2)
}

pub fn word(high: u8, low: u8) -> u16 {
    u16::from_be_bytes([high, low])
}

/// What is left of a formula, and how large it has been so far.
struct Formula<'a> {
    rest: &'a [u8],
    stations: usize,
    tokens: usize,
    atoms: usize,
    over: bool,
    unworkable: bool,
}

impl Formula<'_> {
    /// Width and bar count of one formula as true or as false; none if it is not one.
    fn size(&mut self, sign: bool) -> Option<(u16, u16)> {
        let (&token, rest) = self.rest.split_first()?;
        self.rest = rest;
        self.tokens += 1;
        let (width, bars) = match (token, sign) {
            (1 | 8, _) => {
                let (&[station, _, _, _, _], rest) = rest.split_first_chunk()?;
                if station as usize >= self.stations {
                    return None;
                }
                self.rest = rest;
                self.atoms += 1;
                (1, 0)
            }
            (7, _) => {
                let (&[sender, receiver], rest) = rest.split_first_chunk()?;
                if sender.max(receiver) as usize >= self.stations {
                    return None;
                }
                self.rest = rest;
                self.atoms += 1;
                self.unworkable |= !sign;
                (1, 0)
            }
            (2, _) => return self.size(!sign),
            (3, true) | (4, false) => {
                let ((v, a), (w, b)) = (self.size(sign)?, self.size(sign)?);
                (v * w, a + b)
            }
            (3, false) | (4, true) => {
                let ((v, a), (w, b)) = (self.size(sign)?, self.size(sign)?);
                (v + w, a.max(b))
            }
            (5, true) | (6, false) => (self.size(sign)?.0, 0),
            (5, false) | (6, true) => (1, self.size(!sign)?.0),
            _ => return None,
        };
        self.over |= width > 16 || bars > 16;
        Some((width, bars))
    }
}

/// As many as a byte has numbers, so that any number of an event is a place.
const PLACES: usize = 256;

/// A log as far as it has been read.
struct Reader {
    limits: Limits,
    stations: usize,
    /// The header is of kind 11: a panel stands behind each value.
    panels: bool,
    initial: [[u16; STATIONS]; 2],
    events: usize,
    /// The empty cut, then the events' clocks in the order of the log; with their values, and their panels.
    clocks: [Cut; PLACES],
    fields: [[u16; PLACES]; 2],
    /// The place of each station's events among them.
    at: [[u8; PLACES]; STATIONS],
    /// How many events of each station there are.
    counts: Cut,
    messages: Vec<Message>,
    formulas: Vec<u8>,
    ends: Vec<usize>,
}

impl Reader {
    fn clock(&self, station: usize, k: u8) -> Cut {
        self.clocks[self.at[station][k as usize] as usize]
    }

    fn header(&mut self, panels: bool, f: &[u8]) -> Result<(), u8> {
        if self.stations > 0 {
            return Err(4);
        }
        let bytes = if panels { 4 } else { 2 };
        match f.split_first() {
            Some((&n, initial)) if (1..=STATIONS).contains(&n.into()) && initial.len() == bytes * n as usize => {
                (self.stations, self.panels) = (n.into(), panels);
                for (j, b) in initial.chunks_exact(bytes).enumerate() {
                    self.initial[0][j] = word(b[0], b[1]);
                    self.initial[1][j] = if panels { word(b[2], b[3]) } else { 0 };
                }
                Ok(())
            }
            _ => Err(5),
        }
    }

    fn event(&mut self, n: usize, frame: &Frame) -> Result<(), u8> {
        if self.stations == 0 || !self.ends.is_empty() || !self.messages.is_empty() || self.events == self.limits.events {
            return Err(4);
        }
        let (station, at) = (frame[1] as usize, if self.panels { 6 } else { 4 });
        if n != at + 1 + self.stations || station >= self.stations {
            return Err(6);
        }
        let clock = Cut::from_le_bytes(frame[at..at + 8].try_into().unwrap()) & Cut::MAX >> (64 - 8 * self.stations);
        let (own, k) = (1 << (8 * station), count(self.counts, station));
        if count(clock, station) != k + 1 {
            return Err(7);
        }
        // What has been seen before is mostly what the station's last event has seen, which was judged with that event.
        let seen = clock - own;
        if seen != self.clock(station, k) {
            let counts = seen.to_le_bytes();
            if !contained(seen, self.counts) || !contained((0..STATIONS).fold(0, |c, j| join(c, self.clock(j, counts[j]))), clock) {
                return Err(7);
            }
        }
        self.counts += own;
        self.events += 1;
        self.at[station][k as usize + 1] = self.events as u8;
        self.clocks[self.events] = clock;
        self.fields[0][self.events] = word(frame[2], frame[3]);
        if self.panels {
            self.fields[1][self.events] = word(frame[4], frame[5]);
        }
        Ok(())
    }

    fn message(&mut self, f: &[u8]) -> Result<(), u8> {
        if self.stations == 0 || !self.ends.is_empty() || self.messages.len() == self.limits.messages {
            return Err(4);
        }
        let &[sender, sent, receiver, received] = f else { return Err(15) };
        let (i, j) = (sender as usize, receiver as usize);
        if i.max(j) >= self.stations || i == j || sent == 0 || sent > count(self.counts, i) || received > count(self.counts, j) {
            return Err(15);
        }
        if received > 0 && count(self.clock(j, received), i) < sent {
            return Err(15);
        }
        if self.messages.is_empty() {
            self.messages.reserve(self.limits.messages);
        }
        self.messages.push([sender, sent, receiver, received]);
        Ok(())
    }

    fn question(&mut self, formula: &[u8]) -> Result<(), u8> {
        if self.stations == 0 || self.ends.len() == QUESTIONS {
            return Err(4);
        }
        let mut f = Formula { rest: formula, stations: self.stations, tokens: 0, atoms: 0, over: false, unworkable: false };
        if f.size(true).is_none() || !f.rest.is_empty() {
            return Err(8);
        }
        if f.over || f.tokens > 32 || f.atoms > 12 {
            return Err(9);
        }
        if f.unworkable {
            return Err(16);
        }
        self.formulas.extend(formula);
        self.ends.push(self.formulas.len());
        Ok(())
    }

    /// The log, its events station by station.
    fn sorted(self) -> Log {
        let (rows, mut before) = (self.events + 1, [0; STATIONS + 1]);
        let (mut starts, mut fields) = (Vec::with_capacity(rows), [(); 2].map(|_| Vec::with_capacity(self.events + STATIONS)));
        starts.push(0);
        for j in 0..self.stations {
            let events = &self.at[j][1..=count(self.counts, j) as usize];
            starts.extend(events.iter().map(|&i| self.clocks[i as usize]));
            for ((all, initial), of) in fields.iter_mut().zip(&self.initial).zip(&self.fields) {
                all.push(initial[j]);
                all.extend(events.iter().map(|&i| of[i as usize]));
            }
            before[j + 1] = starts.len() - 1;
        }
        Log { stations: self.stations, starts, before, fields, messages: self.messages, formulas: self.formulas, ends: self.ends }
    }
}

pub fn read(limits: Limits, data: &[u8]) -> Result<Log, Refusal> {
    if data.len() > limits.log {
        return Err((1, 0));
    }
    let mut reader = Reader {
        limits,
        stations: 0,
        panels: false,
        initial: [[0; STATIONS]; 2],
        events: 0,
        clocks: [0; PLACES],
        fields: [[0; PLACES]; 2],
        at: [[0; PLACES]; STATIONS],
        counts: 0,
        messages: Vec::new(),
        formulas: Vec::with_capacity(QUESTIONS * LINE),
        ends: Vec::with_capacity(QUESTIONS),
    };
    let (mut rest, mut frame, mut lines) = (data, [0; LINE + 8], 0);
    while !rest.is_empty() {
        lines += 1;
        let (n, after) = line(rest, &mut frame).map_err(|number| (number, lines))?;
        let admitted = match frame[0] {
            0x10 | 0x11 => reader.header(frame[0] == 0x11, &frame[1..n - 1]),
            0x20 => reader.event(n, &frame),
            0x25 => reader.message(&frame[1..n - 1]),
            0x30 => reader.question(&frame[1..n - 1]),
            _ => Err(4),
        };
        admitted.map_err(|number| (number, lines))?;
        rest = after;
    }
    if lines == 0 { Err((4, 1)) } else { Ok(reader.sorted()) }
}
