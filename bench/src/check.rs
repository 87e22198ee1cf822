//! Whether the other codes print and answer what they are to, before they are measured: on the corpus what its listing made, and on logs of
//! the comparison, damaged and large ones among them, what the independent code prints and answers.
use crate::arena;
use crate::codes::{Peer, PEERS};
use compare::check::Case;
use compare::log::{Log, OPERATIONS, PROGRAM, QUESTIONS};
use compare::operations::{self, printed, BARS, LINE, WORKSPACE};
use compare::silences;
use std::fs::read;
use std::panic::{catch_unwind, set_hook, take_hook, AssertUnwindSafe};

const CASES: &str = "crates/cases";

/// How many logs of the comparison there are, and the first one's seed.
pub const LOGS: u64 = 4000;
pub const SEED: u64 = 20261115;

/// What is to be printed for a log, with the program's limits, and the lines of Answer, with the operations'.
struct Expected {
    printed: Vec<u8>,
    answers: Vec<u8>,
}

fn equal(peer: &Peer, log: &[u8], expected: &Expected) -> bool {
    let out = &mut [0; QUESTIONS * LINE];
    let same = || {
        let n = arena::lent(|| (peer.printed)(log, out));
        let mut lines = expected.answers.split_inclusive(|&b| b == 0x0A).enumerate();
        out[..n] == expected.printed
            && lines.all(|(q, line)| {
                let n = arena::lent(|| (peer.answer)(log, q, out));
                out[..n] == *line
            })
    };
    catch_unwind(AssertUnwindSafe(same)).unwrap_or(false)
}

fn all_equal(which: &str, log: &[u8], expected: &Expected) -> Result<(), String> {
    let Some(p) = PEERS.iter().find(|p| !equal(p, log, expected)) else { return Ok(()) };
    let [log, printed, answers] = [log, &expected.printed, &expected.answers].map(<[u8]>::escape_ascii);
    Err(format!("{} differs on {which}: {log}, where this is to be printed: {printed}, and answered: {answers}", p.name))
}

/// The letter and the log of each of the test program's cases; crates/trial says how they stand in its input.
fn cases(input: &[u8]) -> Option<Vec<(u8, &[u8])>> {
    let (mut cases, mut rest) = (Vec::new(), input);
    while let Some((&[letter, _, cut, _, _, _, _, _, high, low], after)) = rest.split_first_chunk() {
        let (log, next) = after.get(cut as usize..)?.split_at_checked(u16::from_be_bytes([high, low]) as usize)?;
        cases.push((letter, log));
        rest = next;
    }
    rest.is_empty().then_some(cases)
}

/// What is printed for each of the cases, without its first line, which begins with the letter.
fn outputs(printed: &[u8]) -> Vec<Vec<u8>> {
    let mut outputs: Vec<Vec<u8>> = Vec::new();
    for line in printed.split_inclusive(|&b| b == 0x0A) {
        match outputs.last_mut() {
            Some(last) if !line[0].is_ascii_uppercase() => last.extend(line),
            _ => outputs.push(Vec::new()),
        }
    }
    outputs
}

/// What a case shows: what the program prints, and behind it, where a line about a forecast begins with a space, the lines of Answer. Where
/// there are none, those that the program prints are to be answered.
fn shown(output: &[u8]) -> Expected {
    let lines: Vec<&[u8]> = output.split_inclusive(|&b| b == 0x0A).collect();
    let (printed, rest) = lines.split_at(lines.iter().take_while(|line| line[0] != b' ').count());
    let answers = if rest.is_empty() { printed } else { rest };
    let answers = answers.iter().filter(|line| line.starts_with(b"40")).copied().flatten();
    Expected { printed: printed.concat(), answers: answers.copied().collect() }
}

fn file(name: &str) -> Result<Vec<u8>, String> {
    let path = format!("{CASES}/{name}");
    read(&path).map_err(|e| format!("{path}: {e}"))
}

/// The lines of Answer for all questions of a log, by the independent code.
fn answers(log: &[u8]) -> Vec<u8> {
    let (mut lines, line) = (vec![], &mut [0; LINE]);
    for q in 0.. {
        let Ok(n) = operations::answer(log, q, WORKSPACE, BARS, line) else { break };
        lines.extend(&line[..n]);
    }
    lines
}

/// How many logs there were, and of the accepted ones how many of more events than the program takes, with messages, with a header of kind
/// 11, and with a silent station.
#[derive(Default)]
pub struct Seen {
    pub logs: u64,
    pub large: u64,
    pub messages: u64,
    pub panels: u64,
    pub silent: u64,
}

impl Seen {
    fn meet(&mut self, log: &[u8]) {
        self.logs += 1;
        let Ok(log) = Log::read(OPERATIONS, log) else { return };
        self.large += (log.events > PROGRAM.events) as u64;
        self.messages += !log.messages.is_empty() as u64;
        self.panels += log.panels as u64;
        self.silent += silences::any(&log) as u64;
    }
}

/// What was seen; or the first log on which a code differs. One that panics does, and says no more than that, since a report of its own
/// would be written in the array that it is lent.
pub fn run(logs: u64, seed: u64) -> Result<Seen, String> {
    let usual = take_hook();
    set_hook(Box::new(|_| {}));
    let out = compared(logs, seed);
    set_hook(usual);
    out
}

fn compared(logs: u64, seed: u64) -> Result<Seen, String> {
    let (stdin, stdout) = (file("stdin")?, file("stdout")?);
    let (cases, outputs) = (cases(&stdin).unwrap_or_default(), outputs(&stdout));
    if cases.is_empty() || cases.len() != outputs.len() {
        return Err(format!("{CASES} has {} cases and {} outputs", cases.len(), outputs.len()));
    }
    let mut seen = Seen::default();
    for ((_, log), output) in cases.iter().zip(&outputs).filter(|((letter, _), _)| b"EP".contains(letter)) {
        seen.meet(log);
        all_equal(&format!("log {} of {CASES}", seen.logs), log, &shown(output))?;
    }
    for seed in seed..seed + logs {
        let Case { log, .. } = Case::new(seed);
        seen.meet(&log);
        all_equal(&format!("the log of `bench check 1 {seed}`"), &log, &Expected { printed: printed(&log), answers: answers(&log) })?;
    }
    Ok(seen)
}
