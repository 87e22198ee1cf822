//! A case's steps replayed: what each says is looked up in the log and among the bounds so far.
use crate::chain::{End, Part, Step};
use crate::formula::Aspect;
use crate::log::{Event, Log, Message};

pub struct Replay<'a> {
    log: &'a Log,
    parts: &'a [Part],
    /// All that is known so far: for each station the counts that it has at least, and those that it has at most.
    least: Vec<Vec<u8>>,
    most: Vec<Vec<u8>>,
}

impl<'a> Replay<'a> {
    /// At least 0 events, and at most those in the log and in each of the moments chosen, which are there.
    pub fn new(log: &'a Log, parts: &'a [Part], chosen: &[(usize, usize)]) -> Self {
        let mut most: Vec<Vec<u8>> = log.stations.iter().map(|events| vec![(events.len() - 1) as u8]).collect();
        for (part, moment) in chosen {
            if let Part::Possibly { moments, .. } = &parts[*part] {
                for (station, known) in most.iter_mut().enumerate() {
                    known.push(moments[*moment][station]);
                }
            }
        }
        Replay { log, parts, least: vec![vec![0]; most.len()], most }
    }

    /// Takes what a step gives, if it follows.
    pub fn step(&mut self, step: &Step) -> Option<()> {
        match *step {
            Step::Fits { station, from, to } => {
                let known = from < to && self.at_least(station, from)?;
                self.raise(known && self.fits(station, to)? && self.none_fits(station, from, to - 1)?, station, to)
            }
            Step::Seen { station, event, other, count } => {
                let seen = *self.event(station, event)?.clock.get(other)?;
                let follows = event > 0 && other != station && self.at_least(station, event)? && seen == count;
                self.raise(follows, other, count)
            }
            Step::Received { message } => {
                let Message { sender, sent, receiver, received, .. } = *self.awaited(message)?;
                let follows = received > 0 && self.is_sent(sender, sent);
                self.raise(follows, receiver, received)
            }
            Step::FitsLast { station, from, to } => {
                let known = to < from && self.at_most(station, from)?;
                self.lower(known && self.fits(station, to)? && self.none_fits(station, to + 1, from)?, station, to)
            }
            Step::NotSeen { station, event, other, count } => {
                let seen = *self.event(station, event)?.clock.get(other)?;
                let follows = event > 0 && other != station && self.at_most(other, count)? && seen > count;
                self.lower(follows, station, event.checked_sub(1)?)
            }
            Step::NotSent { message } => {
                let Message { sender, sent, receiver, received, .. } = *self.awaited(message)?;
                let follows = received == 0 || self.most[receiver].iter().any(|most| *most < received);
                self.lower(follows, sender, sent - 1)
            }
        }
    }

    /// Whether no moment is left.
    pub fn ends(&self, end: &End) -> bool {
        self.ended(end).unwrap_or(false)
    }

    fn ended(&self, end: &End) -> Option<bool> {
        match *end {
            End::NoneFits { station, from, to } => {
                Some(from <= to && self.at_least(station, from)? && self.at_most(station, to)? && self.none_fits(station, from, to)?)
            }
            End::NeverCame { message } => self.awaited(message).map(|m| m.received == 0 && self.is_sent(m.sender, m.sent)),
            End::Past { station, least, most } => Some(least > most && self.at_least(station, least)? && self.at_most(station, most)?),
            End::Barred { part, moment } => {
                let Part::NotPossibly { moments, .. } = self.parts.get(part)? else { return None };
                let within = |(known, bar): (&Vec<u8>, &u8)| known.iter().any(|most| most <= bar);
                Some(self.most.iter().zip(moments.get(moment)?).all(within))
            }
        }
    }

    fn raise(&mut self, follows: bool, station: usize, count: u8) -> Option<()> {
        follows.then(|| self.least[station].push(count))
    }

    fn lower(&mut self, follows: bool, station: usize, count: u8) -> Option<()> {
        follows.then(|| self.most[station].push(count))
    }

    fn at_least(&self, station: usize, count: u8) -> Option<bool> {
        Some(self.least.get(station)?.contains(&count))
    }

    fn at_most(&self, station: usize, count: u8) -> Option<bool> {
        Some(self.most.get(station)?.contains(&count))
    }

    fn is_sent(&self, sender: usize, sent: u8) -> bool {
        self.least[sender].iter().any(|least| *least >= sent)
    }

    fn event(&self, station: usize, number: u8) -> Option<&Event> {
        self.log.stations.get(station)?.get(number as usize)
    }

    /// A message that may not be on the way.
    fn awaited(&self, message: usize) -> Option<&'a Message> {
        let found = self.log.messages.get(message)?;
        let clear = |part: &Part| matches!(part, Part::Clear { from, to } if (*from, *to) == (found.sender, found.receiver));
        self.parts.iter().any(clear).then_some(found)
    }

    fn none_fits(&self, station: usize, first: u8, last: u8) -> Option<bool> {
        for number in first..=last {
            if self.fits(station, number)? {
                return Some(false);
            }
        }
        Some(true)
    }

    /// Whether an event fits every range of its station: a range goes up from lo to hi, through zero where it has to, and a silent value
    /// fits none.
    fn fits(&self, at: usize, number: u8) -> Option<bool> {
        let event = self.event(at, number)?;
        let mut fits = true;
        for part in self.parts {
            if let Part::Range { inside, aspect, station, lo, hi } = part {
                let (reported, silent) = if *aspect == Aspect::Value { (event.value, event.value == 0xFFFF) } else { (event.panel, false) };
                let within = reported.wrapping_sub(*lo) <= hi.wrapping_sub(*lo);
                fits &= *station != at || (within == *inside && !silent);
            }
        }
        Some(fits)
    }
}
