//! Tokens 07 in accepted questions: what there is between their stations, what they stand under, and how starts were raised.
use crate::basis::Worker;
use crate::formula::{Placed, Token, UNDER};
use crate::log::{Log, Message};
use crate::tally::{add, named};

/// From a station to itself, or of a pair without messages, with one that never came, with one named twice.
const ASKED: [&str; 4] = ["to itself", "no message", "never came", "named twice"];

/// Starts that came to a cut or to none, by the passes over the messages that raised them.
const RAISED: [[&str; 3]; 2] =
    [["starts in no pass", "in one pass", "in more passes"], ["to none in the first pass", "to none after one", "to none after more"]];

#[derive(Default)]
pub struct Clears {
    asked: [usize; ASKED.len()],
    under: [usize; UNDER.len()],
    raised: [[usize; 3]; 2],
}

impl Clears {
    /// A question that was worked out, and its atoms.
    pub fn meet(&mut self, log: &Log, atoms: &[Placed], w: &Worker) {
        atoms.iter().for_each(|p| self.meet_atom(log, p));
        self.raised.iter_mut().flatten().zip(w.raised.as_flattened()).for_each(|(n, more)| *n += more);
    }

    fn meet_atom(&mut self, log: &Log, p: &Placed) {
        let Token::Clear { sender, receiver } = p.atom else { return };
        let all: Vec<Message> = log.messages.iter().filter(|m| (m.sender, m.receiver) == (sender, receiver)).copied().collect();
        let twice = (1..all.len()).any(|k| all[..k].contains(&all[k]));
        add(&mut self.asked, [sender == receiver, sender != receiver && all.is_empty(), all.iter().any(|m| m.received == 0), twice]);
        add(&mut self.under, p.under);
    }

    pub fn figures(&self) -> Vec<(String, usize)> {
        let raised = named(RAISED.as_flattened(), self.raised.as_flattened());
        [named(&ASKED, &self.asked), named(&UNDER, &self.under), raised].concat()
    }
}
