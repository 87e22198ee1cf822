//! The safe layer over the static library, the crate `moment`, once a log: it says what the independent implementation does.
use crate::basis::{Structure, Worker};
use crate::fault::{Fault, Refusal};
use crate::log::{entries, Cut, Log, OPERATIONS};
use crate::operations::{self as here, answer_line};
use crate::tally::named;

const NAMES: [&str; 10] = [
    "logs taken apart", "logs refused", "lists written", "lists refused", "pairs merged", "pairs refused", "answers", "cuts with yes",
    "cuts with no", "cuts refused",
];

/// How often each of these was met.
#[derive(Default)]
pub struct Layer([usize; NAMES.len()]);

fn refusal(fault: Fault, line: u32) -> moment::Refusal {
    moment::Refusal { number: fault.number(), line }
}

impl Layer {
    pub fn figures(&self) -> Vec<(String, usize)> {
        named(&NAMES, &self.0)
    }

    fn meet(&mut self, name: &str) {
        self.0.iter_mut().zip(NAMES).filter(|(_, n)| *n == name).for_each(|(count, _)| *count += 1);
    }

    /// A log: its counts and frames, and the frames put together again; or its refusal, which comes before any question is looked for.
    pub fn meet_log(&mut self, data: &[u8], read: &Result<Log, Refusal>) {
        let (log, no_question) = match read {
            Ok(log) => (Ok(log), refusal(Fault::NoSuchQuestion, 0)),
            Err(Refusal(fault, line)) => (Err(refusal(*fault, *line)), refusal(*fault, *line)),
        };
        let frames = moment::frames(data);
        if let (Ok(log), Ok(frames)) = (log, &frames) {
            let list = moment::list(frames);
            assert_eq!(list, log.list, "the safe layer's list");
            assert_eq!(moment::write(&list).as_deref(), Ok(data), "the log that the safe layer writes");
        }
        self.meet(if log.is_ok() { "logs taken apart" } else { "logs refused" });
        let counts = |log: &Log| [log.stations(), log.events, log.questions.len(), log.list.len()];
        let read = moment::read(data).map(|r| [r.stations, r.events, r.questions, r.list]);
        assert_eq!(read, log.map(counts), "the safe layer's counts");
        let expected = |log: &Log| entries(OPERATIONS, &log.list).into_iter().flatten().map(<[u8]>::to_vec).collect();
        assert_eq!(frames, log.map(expected), "the safe layer's frames");
        let past = log.map_or(0, |log| log.questions.len());
        assert_eq!(moment::answer(data, past), Err(no_question), "the safe layer's answer to no question");
        assert_eq!(moment::holds(data, past, &[]), Err(no_question), "the safe layer's test of no question");
    }

    /// A frame list, written or refused.
    pub fn meet_list(&mut self, list: &[u8]) {
        let mut out = vec![0; OPERATIONS.log];
        let expected = here::write(list, &mut out).map(|n| out[..n].to_vec()).map_err(|Refusal(fault, line)| refusal(fault, line));
        self.meet(if expected.is_ok() { "lists written" } else { "lists refused" });
        assert_eq!(moment::write(list), expected, "the safe layer's log");
    }

    /// Two logs, merged or refused.
    pub fn meet_pair(&mut self, first: &[u8], second: &[u8]) {
        let mut out = vec![0; OPERATIONS.log];
        let merged = here::merge(first, second, &mut out).map(|n| &out[..n]).map_err(|Refusal(fault, line)| refusal(fault, line));
        self.meet(if merged.is_ok() { "pairs merged" } else { "pairs refused" });
        assert_eq!(moment::merge(first, second).as_deref(), merged.as_ref().copied(), "the safe layer's merged log");
    }

    /// An accepted question and its basis: the answer, and Holds at the start, at the cuts listed, at the greatest cut and past it.
    pub fn meet_question(&mut self, data: &[u8], log: &Log, q: usize, w: &Worker, basis: &[Structure]) {
        let (n, tops) = (log.stations(), w.tops(basis));
        let holds = |c: &Cut| basis.iter().any(|s| w.belongs(s, c));
        let line = answer_line(holds(&[0; 8]), &tops, n, w.rounds);
        let line = String::from_utf8_lossy(&line).trim_end().to_string();
        let moments: Vec<Vec<u8>> = tops.iter().map(|c| c[..n].to_vec()).collect();
        let most: Vec<u8> = log.history.iter().map(|h| (h.len() - 1) as u8).collect();
        let past: Vec<u8> = most.iter().map(|k| k + 1).collect();
        for cut in moments.iter().chain([&vec![0; n], &most, &past]) {
            let expected = log.cut(cut).map(|c| holds(&c)).map_err(|fault| refusal(fault, 0));
            self.meet(expected.map_or("cuts refused", |yes| if yes { "cuts with yes" } else { "cuts with no" }));
            assert_eq!(moment::holds(data, q, cut), expected, "question {q} at {cut:?}: the safe layer and here");
        }
        let expected = moment::Answer { start: holds(&[0; 8]), moments, rounds: w.rounds, line };
        self.meet("answers");
        assert_eq!(moment::answer(data, q), Ok(expected), "question {q}: the safe layer and here");
    }
}
