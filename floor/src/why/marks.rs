//! What a chain points at, for a picture.
use super::Marks;
use crate::chain::{Case, End, Part, Step, Why};
use crate::log::{Log, Message};

/// Each once, in order. An initial report is no event.
pub fn marks(log: &Log, why: &Why) -> Marks {
    let mut marks = Marks::default();
    marks.why(log, why);
    marks.events.retain(|(_, number)| *number > 0);
    marks.events.sort();
    marks.events.dedup();
    marks.arrows.sort();
    marks.arrows.dedup();
    marks
}

impl Marks {
    fn why(&mut self, log: &Log, why: &Why) {
        for way in &why.ways {
            for part in &way.parts {
                if let Part::Possibly { why: Some(never), .. } = part {
                    self.why(log, never);
                }
            }
            way.cases.iter().for_each(|case| self.case(log, case));
        }
    }

    fn case(&mut self, log: &Log, case: &Case) {
        case.steps.iter().for_each(|step| self.step(log, step));
        match case.end {
            End::NoneFits { station, from, to } => self.events.extend((from..=to).map(|number| (station, number))),
            End::NeverCame { message } => self.message(&log.messages[message]),
            End::Past { station, least, .. } => self.events.push((station, least)),
            End::Barred { .. } => {}
        }
    }

    fn step(&mut self, log: &Log, step: &Step) {
        match *step {
            Step::Fits { station, to, .. } | Step::FitsLast { station, to, .. } => self.events.push((station, to)),
            Step::Seen { station, event, other, .. } | Step::NotSeen { station, event, other, .. } => {
                let seen = log.stations[station][event as usize].clock[other];
                self.arrow((other, seen), (station, event));
            }
            Step::Received { message } | Step::NotSent { message } => self.message(&log.messages[message]),
        }
    }

    fn message(&mut self, m: &Message) {
        match m.received {
            0 => self.events.push((m.sender, m.sent)),
            received => self.arrow((m.sender, m.sent), (m.receiver, received)),
        }
    }

    fn arrow(&mut self, seen: (usize, u8), by: (usize, u8)) {
        self.events.extend([seen, by]);
        self.arrows.push((seen, by));
    }
}
