//! The steps and the end of a case, a sentence each.
use super::ranges::Ranges;
use super::words::Teller;
use crate::chain::{Case, End, Part, Step, Way};

pub struct Sentences<'a> {
    pub teller: &'a Teller<'a>,
    pub way: &'a Way,
}

impl Sentences<'_> {
    pub fn of(&self, case: &Case) -> Vec<String> {
        let mut lines = vec![];
        for (i, step) in case.steps.iter().enumerate() {
            let before = i.checked_sub(1).map(|b| &case.steps[b]);
            lines.push(format!("{};", self.step(before, step)));
        }
        lines.push(format!("{}.", self.end(&case.end)));
        lines
    }

    fn step(&self, before: Option<&Step>, step: &Step) -> String {
        match *step {
            Step::Fits { station, from, to } => self.ranges(station).fits(from, to),
            Step::Seen { station, event, other, count } => {
                format!("{}, so {}", self.seen(station, event, other), self.at_least(other, count))
            }
            Step::Received { message } => {
                let m = &self.teller.log.messages[message];
                let (sent, came) = (self.message("and", message), self.event(m.receiver, m.received));
                format!("{sent} has to have come: it comes with {came}, so {}", self.at_least(m.receiver, m.received))
            }
            Step::FitsLast { station, from, to } => self.ranges(station).fits_last(from, to),
            Step::NotSeen { station, event, other, count } => {
                let just_told = before.is_some_and(|b| self.most_of(b) == Some((other, count)));
                let start = if just_told { String::new() } else { format!("{}, and ", self.at_most(other, count)) };
                format!("{start}{}, so {}", self.seen(station, event, other), self.at_most(station, event - 1))
            }
            Step::NotSent { message } => {
                let m = &self.teller.log.messages[message];
                let so = self.at_most(m.sender, m.sent - 1);
                let sent = self.message("and", message);
                match m.received {
                    0 => format!("{sent} never came, so {so}"),
                    received => format!("{sent} comes only with {}, which is too late, so {so}", self.event(m.receiver, received)),
                }
            }
        }
    }

    fn end(&self, end: &End) -> String {
        match *end {
            End::NoneFits { station, from, to } => self.ranges(station).none_fits(from, to),
            End::NeverCame { message } => format!("{} never came", self.message("but", message)),
            End::Past { station, most, .. } => format!("but {}", self.teller.goes_no_further(station, most)),
            End::Barred { part, moment } => self.barred(part, moment),
        }
    }

    fn ranges(&self, station: usize) -> Ranges<'_> {
        Ranges::new(self.teller, self.way, station)
    }

    fn name(&self, station: usize) -> String {
        self.teller.names.station(station)
    }

    fn event(&self, station: usize, number: u8) -> String {
        self.teller.event(station, number)
    }

    /// "desk's event 2 (line 6) has seen table's event 2 (line 4): its clock says 0202000000".
    fn seen(&self, station: usize, event: u8, other: usize) -> String {
        let clock = &self.teller.log.stations[station][event as usize].clock;
        let digits: String = clock.iter().map(|b| format!("{b:02X}")).collect();
        format!("{} has seen {}: its clock says {digits}", self.event(station, event), self.event(other, clock[other]))
    }

    fn at_least(&self, station: usize, count: u8) -> String {
        format!("{} is at its event {count} or later", self.name(station))
    }

    fn at_most(&self, station: usize, count: u8) -> String {
        match count {
            0 => format!("{} is before its first event", self.name(station)),
            _ => format!("{} is at its event {count} or earlier", self.name(station)),
        }
    }

    /// The bound from above that a step gives.
    fn most_of(&self, step: &Step) -> Option<(usize, u8)> {
        match *step {
            Step::FitsLast { station, to, .. } => Some((station, to)),
            Step::NotSeen { station, event, .. } => Some((station, event - 1)),
            Step::NotSent { message } => Some((self.teller.log.messages[message].sender, self.teller.log.messages[message].sent - 1)),
            _ => None,
        }
    }

    /// "nothing may be on the way from desk to table, and the message that desk sent with its event 3 (line 6; message: line 9)".
    fn message(&self, and: &str, message: usize) -> String {
        let m = &self.teller.log.messages[message];
        let (from, to) = (self.name(m.sender), self.name(m.receiver));
        let (sent, line) = (self.teller.line(m.sender, m.sent), (self.teller.place)(m.line));
        let told = format!("the message that {from} sent with its event {} ({sent}; message: {line})", m.sent);
        format!("nothing may be on the way from {from} to {to}, {and} {told}")
    }

    fn barred(&self, part: usize, moment: usize) -> String {
        let Part::NotPossibly { of, line, moments, .. } = &self.way.parts[part] else { return String::new() };
        let (asked, fact) = (self.teller.quoted(&self.teller.asked(&self.way.parts[part])), self.teller.holds(of, ""));
        let at = format!("({}; proved: {line})", self.teller.events(&moments[moment]));
        if moments[moment] == self.teller.log.full() {
            return format!("{asked} is never true, since {fact} at the end {at}");
        }
        format!("{asked} has to be true then, but {fact} at one moment {at}, and every such moment is that one or comes before it")
    }
}
