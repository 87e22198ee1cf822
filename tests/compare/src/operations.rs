//! The operations of document 01, as its tickets amend it, over the independent implementation.
use crate::basis::Worker;
use crate::fault::{Fault, Refusal};
use crate::formula::{size, Token, Tokens};
use crate::log::{entries, field_bytes, line, Cut, Log, OPERATIONS, PROGRAM, STATIONS};

/// The most structures that a question holds, and the most cells that it takes.
pub const HELD: usize = 36;
pub const WORKSPACE: usize = HELD * STATIONS * (OPERATIONS.events + 1);
pub const BARS: usize = 8192;
pub const LINE: usize = 273;

fn refused<T>(fault: Fault) -> Result<T, Refusal> {
    Err(Refusal(fault, 0))
}

/// Bytes at the front of an output.
pub fn put(bytes: &[u8], out: &mut [u8]) -> usize {
    out[..bytes.len()].copy_from_slice(bytes);
    bytes.len()
}

/// The counts of stations, events and questions, and the list's length.
pub fn read(data: &[u8], out: &mut [u8]) -> Result<[usize; 4], Refusal> {
    let log = Log::read(OPERATIONS, data)?;
    if out.len() < OPERATIONS.list {
        return refused(Fault::Output);
    }
    Ok([log.stations(), log.events, log.questions.len(), put(&log.list, out)])
}

pub fn write(list: &[u8], out: &mut [u8]) -> Result<usize, Refusal> {
    let log = Log::from_list(OPERATIONS, list)?;
    if out.len() < OPERATIONS.log {
        return refused(Fault::Output);
    }
    let lines: Vec<u8> = entries(OPERATIONS, &log.list).into_iter().flatten().flat_map(line).collect();
    Ok(put(&lines, out))
}

/// An event or a message of a log as it stands in a merged one, with so many stations before the log's own and so many behind.
fn moved(log: &Log, f: &[u8], panels: bool, [before, behind]: [usize; 2]) -> Vec<u8> {
    let (on, zeros) = (|station: u8| station + before as u8, [0; STATIONS]);
    match *f {
        [0x25, sender, sent, receiver, received] => vec![0x25, on(sender), sent, on(receiver), received],
        _ => {
            let (fields, clock) = f[2..].split_at(field_bytes(log.panels)[0]);
            [&[0x20, on(f[1])], fields, no_panel(log, panels), &zeros[..before], clock, &zeros[..behind]].concat()
        }
    }
}

/// What stands behind a value of a log that has no panels, where the merged one has them.
fn no_panel(log: &Log, panels: bool) -> &'static [u8] {
    if panels && !log.panels { &[0, 0] } else { &[] }
}

/// The frames of two logs as one.
pub fn merged(first: &Log, second: &Log) -> Vec<Vec<u8>> {
    let (panels, n, m) = (first.panels || second.panels, first.stations(), second.stations());
    let frames = [first, second].map(|log| entries(OPERATIONS, &log.list).expect("a list that was read"));
    let mut header = vec![if panels { 0x11 } else { 0x10 }, (n + m) as u8];
    for (log, fs) in [first, second].into_iter().zip(&frames) {
        let values = fs[0][2..].chunks(field_bytes(log.panels)[0]);
        values.for_each(|value| header.extend([value, no_panel(log, panels)].concat()));
    }
    let (sides, mut out) = ([(first, &frames[0], [0, m]), (second, &frames[1], [n, 0])], vec![header]);
    for kind in [0x20, 0x25] {
        for (log, fs, beside) in &sides {
            out.extend(fs.iter().filter(|f| f[0] == kind).map(|f| moved(log, f, panels, *beside)));
        }
    }
    out.extend(frames[0].iter().filter(|f| f[0] == 0x30).map(|f| f.to_vec()));
    out
}

/// What two logs are too many of together.
fn together(first: &Log, second: &Log) -> Result<(), Refusal> {
    if first.stations() + second.stations() > STATIONS {
        return refused(Fault::StationsTogether);
    }
    if first.events + second.events > OPERATIONS.events {
        return refused(Fault::EventsTogether);
    }
    if first.messages.len() + second.messages.len() > OPERATIONS.messages {
        return refused(Fault::MessagesTogether);
    }
    Ok(())
}

pub fn merge(data: &[u8], more: &[u8], out: &mut [u8]) -> Result<usize, Refusal> {
    let (first, second) = (Log::read(OPERATIONS, data)?, Log::read(OPERATIONS, more)?);
    together(&first, &second)?;
    if out.len() < OPERATIONS.log {
        return refused(Fault::Output);
    }
    let lines: Vec<u8> = merged(&first, &second).iter().flat_map(|f| line(f)).collect();
    Ok(put(&lines, out))
}

fn question(log: &Log, q: usize) -> Result<&[Token], Refusal> {
    log.questions.get(q).map(Vec::as_slice).ok_or(Refusal(Fault::NoSuchQuestion, 0))
}

/// Width, the largest bar count at any token, structures held, the cells these take, and a ceiling for the rounds.
pub type Costs = [usize; 5];

pub fn costs(log: &Log, f: &[Token]) -> Costs {
    let (s, starts) = (size(&mut Tokens(f), true).expect("a question that fits"), log.events + 1);
    [s.width, s.most, s.held, s.held * log.stations() * starts, s.products * starts * starts]
}

pub fn forecast(data: &[u8], q: usize) -> Result<Costs, Refusal> {
    let log = Log::read(OPERATIONS, data)?;
    Ok(costs(&log, question(&log, q)?))
}

/// Whether a workspace and a bar space of these sizes are enough.
pub fn room([_, _, _, cells, _]: Costs, workspace: usize, bars: usize) -> Result<(), Refusal> {
    if workspace < cells {
        return refused(Fault::Workspace);
    }
    if bars < BARS {
        return refused(Fault::BarSpace);
    }
    Ok(())
}

pub fn answer_line(start: bool, cuts: &[Cut], stations: usize, rounds: u32) -> Vec<u8> {
    let mut f = vec![0x40, start as u8, cuts.len() as u8];
    cuts.iter().for_each(|c| f.extend(&c[..stations]));
    f.extend(rounds.to_be_bytes());
    line(&f)
}

pub fn answer_question(log: &Log, f: &[Token]) -> Vec<u8> {
    let mut w = Worker::new(log);
    let basis = w.basis(&mut Tokens(f), true);
    let start = basis.iter().any(|s| w.belongs(s, &[0; 8]));
    answer_line(start, &w.tops(&basis), log.stations(), w.rounds)
}

pub fn answer(data: &[u8], q: usize, workspace: usize, bars: usize, out: &mut [u8]) -> Result<usize, Refusal> {
    let log = Log::read(OPERATIONS, data)?;
    let f = question(&log, q)?;
    room(costs(&log, f), workspace, bars)?;
    if out.len() < LINE {
        return refused(Fault::Output);
    }
    Ok(put(&answer_question(&log, f), out))
}

pub fn holds(data: &[u8], q: usize, cut: &[u8], workspace: usize, bars: usize) -> Result<bool, Refusal> {
    let log = Log::read(OPERATIONS, data)?;
    let f = question(&log, q)?;
    let c = log.cut(cut).or_else(refused)?;
    room(costs(&log, f), workspace, bars)?;
    let mut w = Worker::new(&log);
    Ok(w.basis(&mut Tokens(f), true).iter().any(|s| w.belongs(s, &c)))
}

/// What the program prints, which has limits of its own, by a rule that answers a question.
pub fn printed_by(data: &[u8], answer: impl Fn(&Log, &[Token]) -> Vec<u8>) -> Vec<u8> {
    match Log::read(PROGRAM, data) {
        Err(Refusal(fault, at)) => line(&[0x50, fault.number(), (at / 256) as u8, (at % 256) as u8]),
        Ok(log) => log.questions.iter().flat_map(|q| answer(&log, q)).collect(),
    }
}

pub fn printed(data: &[u8]) -> Vec<u8> {
    printed_by(data, answer_question)
}
