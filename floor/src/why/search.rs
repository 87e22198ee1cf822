//! Bounds that steps give from other bounds, breadth first.
use crate::chain::Step;
use std::collections::BTreeSet;

/// A bound on the events of a station.
pub struct Bound {
    pub station: usize,
    pub count: u8,
    /// The step that gives it, and the number of the bound that the step goes by, if it goes by one; none before all steps.
    pub by: Option<(Step, Option<usize>)>,
    /// The steps up to here, and the events that they look at.
    pub cost: (usize, usize),
}

impl Bound {
    pub fn given(station: usize, count: u8) -> Bound {
        Bound { station, count, by: None, cost: (0, 0) }
    }
}

/// A step from a bound, the bound that it gives, and the number of events that it looks at.
pub struct Next {
    pub step: Step,
    pub station: usize,
    pub count: u8,
    pub looked: usize,
}

/// All bounds that steps give, each by the fewest steps and, of these, the fewest events looked at. A bound stands behind those that its
/// step goes by. The bounds to start with are in the order of their steps.
pub fn reach(start: Vec<Bound>, next: impl Fn(&Bound) -> Vec<Next>) -> Vec<Bound> {
    let mut bounds = start;
    let mut at = 0;
    while at < bounds.len() {
        let (steps, looked) = bounds[at].cost;
        for n in next(&bounds[at]) {
            let new = Bound { station: n.station, count: n.count, by: Some((n.step, Some(at))), cost: (steps + 1, looked + n.looked) };
            match bounds.iter().position(|b| (b.station, b.count) == (new.station, new.count)) {
                None => bounds.push(new),
                Some(old) if new.cost < bounds[old].cost => bounds[old] = new,
                Some(_) => {}
            }
        }
        at += 1;
    }
    bounds
}

/// The bounds by which one is reached, itself included, without those that no step gives.
pub fn needed(bounds: &[Bound], last: usize) -> BTreeSet<usize> {
    let mut needed = BTreeSet::new();
    let mut at = Some(last);
    while let Some((i, (_, from))) = at.and_then(|i| bounds[i].by.as_ref().map(|by| (i, by))) {
        needed.insert(i);
        at = *from;
    }
    needed
}

/// The steps that give these bounds.
pub fn steps(bounds: &[Bound], needed: &BTreeSet<usize>) -> Vec<Step> {
    needed.iter().filter_map(|i| bounds[*i].by.as_ref().map(|(step, _)| step.clone())).collect()
}
