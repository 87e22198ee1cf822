//! One thing done by one code, with a log from standard input: for callgrind to count.
use crate::codes::{Peer, PEERS};
use crate::{arena, refuse};
use compare::log::{OPERATIONS, QUESTIONS};
use compare::operations::{BARS, LINE, WORKSPACE};
use moment::lent as proved;
use std::io::{stdin, stdout, Read, Write};

fn input() -> Vec<u8> {
    let mut data = Vec::new();
    stdin().read_to_end(&mut data).unwrap();
    data
}

fn number(times: &str) -> usize {
    times.parse().unwrap_or_else(|_| refuse("TIMES is no number"))
}

fn peer(code: &str) -> &'static Peer {
    PEERS.iter().find(|p| p.name == code).unwrap_or_else(|| refuse("no such code"))
}

/// The lines of all questions.
pub fn print(code: &str) {
    let (peer, data, mut out) = (peer(code), input(), [0; QUESTIONS * LINE]);
    let n = arena::lent(|| (peer.printed)(&data, &mut out));
    stdout().write_all(&out[..n]).unwrap();
}

/// Read of the proved code.
pub fn read(times: &str) {
    let (times, data, mut list) = (number(times), input(), [0; OPERATIONS.list]);
    for _ in 0..times {
        proved::read(&data, &mut list).unwrap_or_else(|_| refuse("the log is refused"));
    }
}

/// Answer of the proved code or another, for each of 16 questions; the lines are printed at the end.
pub fn answer(code: &str, times: &str) {
    let (times, other) = (number(times), (code != "proved").then(|| peer(code)));
    let (data, mut lines) = (input(), Vec::with_capacity(times * QUESTIONS * LINE));
    let (mut line, mut ws, mut bs) = ([0; LINE], vec![0; WORKSPACE], [0; BARS]);
    for q in (0..times).flat_map(|_| 0..QUESTIONS) {
        let n = match other {
            Some(p) => arena::lent(|| (p.answer)(&data, q, &mut line)),
            None => proved::answer(&data, q, &mut ws, &mut bs, &mut line).unwrap_or_else(|_| refuse("the log is refused, or the question")),
        };
        lines.extend_from_slice(&line[..n]);
    }
    stdout().write_all(&lines).unwrap();
}
