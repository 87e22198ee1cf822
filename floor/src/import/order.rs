//! An order in which the events can have come.
use super::clocks::Table;
use super::trace::Trace;
use std::cmp::Reverse;
use std::collections::BinaryHeap;

/// The events, each after all that it has seen: of those that can come next always the one that stands first in the file. So the file's own
/// order is kept where it is possible.
pub fn possible(trace: &Trace, table: &Table) -> Vec<usize> {
    let mut wait: Vec<usize> = vec![0; trace.events.len()];
    let mut waiting: Vec<Vec<usize>> = trace.events.iter().map(|_| vec![]).collect();
    for (i, event) in trace.events.iter().enumerate() {
        for seen in table.seen(event) {
            wait[i] += 1;
            waiting[seen].push(i);
        }
    }
    let mut ready: BinaryHeap<Reverse<usize>> = (0..wait.len()).filter(|&i| wait[i] == 0).map(Reverse).collect();
    let mut order = vec![];
    while let Some(Reverse(event)) = ready.pop() {
        order.push(event);
        for &i in &waiting[event] {
            wait[i] -= 1;
            if wait[i] == 0 {
                ready.push(Reverse(i));
            }
        }
    }
    order
}
