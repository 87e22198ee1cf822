//! What rules out a way up to the moments chosen: bounds from below that leave a station no event, or bounds from above that are within a
//! moment which bars what it contains.
use super::search::{needed, reach, steps, Bound, Next};
use crate::chain::{End, Part, Step};
use crate::formula::{inside, Aspect};
use crate::log::{Log, Message};
use crate::names::SILENT;
use std::collections::BTreeSet;

pub struct Rule<'a> {
    log: &'a Log,
    parts: &'a [Part],
    /// The most events of each station, by the log and the moments chosen.
    most: Vec<u8>,
}

/// Steps, and how they leave no moment.
pub type Found = (Vec<Step>, End);

impl Rule<'_> {
    pub fn new<'a>(log: &'a Log, parts: &'a [Part], chosen: &[(usize, usize)]) -> Rule<'a> {
        let mut most = log.full();
        for (part, moment) in chosen {
            if let Part::Possibly { moments, .. } = &parts[*part] {
                most.iter_mut().zip(&moments[*moment]).for_each(|(m, count)| *m = (*m).min(*count));
            }
        }
        Rule { log, parts, most }
    }

    /// The fewest steps that leave no moment, if any do.
    pub fn ruled_out(&self) -> Option<Found> {
        let (least, most) = (self.by_least(), self.by_most());
        least.into_iter().chain(most).min_by_key(|(steps, _)| steps.len())
    }

    /// Whether an event fits all ranges of its station.
    fn fits(&self, at: usize, number: u8) -> bool {
        let event = &self.log.stations[at][number as usize];
        self.parts.iter().all(|part| match part {
            Part::Range { aspect: Aspect::Value, station, .. } if *station == at && event.value == SILENT => false,
            Part::Range { inside: sign, aspect, station, lo, hi } if *station == at => inside(*lo, *hi, event.of(*aspect)) == *sign,
            _ => true,
        })
    }

    /// The messages, with their numbers, that may not be on the way.
    fn awaited(&self) -> impl Iterator<Item = (usize, &Message)> {
        let clear = |m: &Message| self.parts.contains(&Part::Clear { from: m.sender, to: m.receiver });
        self.log.messages.iter().enumerate().filter(move |(_, m)| clear(m))
    }

    fn clock(&self, station: usize, number: u8) -> &[u8] {
        &self.log.stations[station][number as usize].clock
    }

    /// By bounds from below.
    fn by_least(&self) -> Option<Found> {
        let start = (0..self.most.len()).map(|s| Bound::given(s, 0)).collect();
        let bounds = reach(start, |b| self.raised(b));
        let ends = (0..bounds.len()).filter_map(|i| self.end(&bounds[i]).map(|(end, looked)| (i, end, looked)));
        let (last, end, _) = ends.min_by_key(|(i, _, looked)| (bounds[*i].cost.0, bounds[*i].cost.1 + looked))?;
        Some((steps(&bounds, &needed(&bounds, last)), end))
    }

    /// The bounds from below that one step gives.
    fn raised(&self, bound: &Bound) -> Vec<Next> {
        let Bound { station, count, .. } = *bound;
        if count > self.most[station] {
            return vec![];
        }
        let mut next = vec![];
        if let Some(to) = (count..=self.most[station]).find(|e| self.fits(station, *e)).filter(|to| *to > count) {
            next.push(Next { step: Step::Fits { station, from: count, to }, station, count: to, looked: (to - count) as usize });
        }
        for (other, seen) in self.clock(station, count).iter().copied().enumerate().filter(|(other, seen)| *other != station && *seen > 0) {
            next.push(Next { step: Step::Seen { station, event: count, other, count: seen }, station: other, count: seen, looked: 1 });
        }
        for (message, m) in self.awaited().filter(|(_, m)| m.sender == station && m.sent <= count && m.received > 0) {
            next.push(Next { step: Step::Received { message }, station: m.receiver, count: m.received, looked: 1 });
        }
        next
    }

    /// How a bound from below leaves no moment, and at how many events that looks.
    fn end(&self, bound: &Bound) -> Option<(End, usize)> {
        let Bound { station, count, .. } = *bound;
        let most = self.most[station];
        if count > most {
            return Some((End::Past { station, least: count, most }, 0));
        }
        if let Some((message, _)) = self.awaited().find(|(_, m)| m.sender == station && m.sent <= count && m.received == 0) {
            return Some((End::NeverCame { message }, 0));
        }
        let none = !(count..=most).any(|e| self.fits(station, e));
        none.then(|| (End::NoneFits { station, from: count, to: most }, (most - count) as usize + 1))
    }

    /// By bounds from above.
    fn by_most(&self) -> Option<Found> {
        let unsent = self.awaited().filter(|(_, m)| m.received == 0).map(|(message, m)| Bound {
            station: m.sender,
            count: m.sent - 1,
            by: Some((Step::NotSent { message }, None)),
            cost: (1, 1),
        });
        let start = (0..self.most.len()).map(|s| Bound::given(s, self.most[s])).chain(unsent).collect();
        let bounds = reach(start, |b| self.lowered(b));
        let found = self.bars().filter_map(|(part, moment, bar)| Some((barred(&bounds, bar)?, End::Barred { part, moment })));
        let (needed, end) = found.min_by_key(|(needed, _)| needed.len())?;
        Some((steps(&bounds, &needed), end))
    }

    /// The moments that bar what they contain, with the numbers of their part and of their place in it.
    fn bars(&self) -> impl Iterator<Item = (usize, usize, &Vec<u8>)> {
        self.parts.iter().enumerate().flat_map(|(part, p)| {
            let moments = if let Part::NotPossibly { moments, .. } = p { &moments[..] } else { &[] };
            moments.iter().enumerate().map(move |(moment, bar)| (part, moment, bar))
        })
    }

    /// The bounds from above that one step gives.
    fn lowered(&self, bound: &Bound) -> Vec<Next> {
        let Bound { station, count, .. } = *bound;
        let mut next = vec![];
        if let Some(to) = (0..=count).rev().find(|e| self.fits(station, *e)).filter(|to| *to < count) {
            next.push(Next { step: Step::FitsLast { station, from: count, to }, station, count: to, looked: (count - to) as usize });
        }
        for s in (0..self.most.len()).filter(|s| *s != station) {
            if let Some(event) = (1..=self.most[s]).find(|e| self.clock(s, *e)[station] > count) {
                let step = Step::NotSeen { station: s, event, other: station, count };
                next.push(Next { step, station: s, count: event - 1, looked: 1 });
            }
        }
        for (message, m) in self.awaited().filter(|(_, m)| m.receiver == station && m.received > count) {
            next.push(Next { step: Step::NotSent { message }, station: m.sender, count: m.sent - 1, looked: 1 });
        }
        next
    }
}

/// The bounds from above by which every station stays within the bar, and those that they are reached by.
fn barred(bounds: &[Bound], bar: &[u8]) -> Option<BTreeSet<usize>> {
    let mut all = BTreeSet::new();
    for (station, most) in bar.iter().enumerate() {
        let within = (0..bounds.len()).filter(|i| bounds[*i].station == station && bounds[*i].count <= *most);
        let best = within.map(|i| needed(bounds, i)).min_by_key(|n| n.difference(&all).count())?;
        all.extend(best);
    }
    // A bound that a later station's go by can make an earlier station's own needless.
    for i in all.clone().into_iter().rev() {
        let gone_by = all.iter().any(|j| matches!(bounds[*j].by, Some((_, Some(from))) if from == i));
        let other = |j: usize| j != i && (all.contains(&j) || bounds[j].by.is_none());
        let station = bounds[i].station;
        if !gone_by && (0..bounds.len()).any(|j| other(j) && bounds[j].station == station && bounds[j].count <= bar[station]) {
            all.remove(&i);
        }
    }
    Some(all)
}
