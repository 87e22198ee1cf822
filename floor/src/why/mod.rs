//! Why a question was never true: the chain made, checked by code that did not make it, and told.
mod check;
mod json;
mod lists;
mod make;
mod marks;
mod ranges;
mod replay;
mod rule;
mod search;
mod sentences;
mod ways;
mod words;

pub use json::json;
pub use marks::marks;

use crate::chain::Why;
use crate::formula::Formula;
use crate::log::Log;
use crate::names::Names;

/// What a chain points at: events (station, number), and clock entries as arrows from the event seen to the event that has seen it.
#[derive(Clone, Debug, Default, PartialEq)]
pub struct Marks {
    pub events: Vec<(usize, u8)>,
    pub arrows: Vec<((usize, u8), (usize, u8))>,
}

/// Why a question that lists nothing was never true, each step checked; or why no chain can be shown.
pub fn never(log: &Log, formula: &Formula) -> Result<Why, String> {
    let why = make::never(log, formula)?;
    match check::why(log, formula, &why) {
        Ok(()) => Ok(why),
        Err(at) => Err(format!("fault of this tool: the chain does not check: {at}")),
    }
}

/// In words, a line each, with lines of the log; `place` says where a line of the log stands ("line 7").
pub fn told(log: &Log, names: &Names, place: &dyn Fn(usize) -> String, why: &Why) -> Vec<String> {
    words::Teller { log, names, place }.why(why)
}
