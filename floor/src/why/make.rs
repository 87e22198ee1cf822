//! A chain made: the ways, the proved code's moments for their parts, and what rules out each case.
use super::rule::{Found, Rule};
use super::ways;
use crate::chain::{Case, Part, Way, Why};
use crate::formula::Formula;
use crate::log::Log;
use moment::Answer;

/// The chain of a question that lists nothing.
pub fn never(log: &Log, formula: &Formula) -> Result<Why, String> {
    match asked(log, formula)?.moments.len() {
        0 => why(log, formula),
        _ => Err("there is nothing to rule out: the question was true".to_string()),
    }
}

/// What the proved code says of a formula. It refuses no part of a question that it accepts: a part has no more tokens, no more width and
/// bars, and its own parts have the same signs; and a log with one question is no longer than the log with all.
fn asked(log: &Log, formula: &Formula) -> Result<Answer, String> {
    let answer = log.with_question(formula).and_then(|bytes| moment::answer(&bytes, 0));
    answer.map_err(|refusal| format!("there is no chain: the proved code does not answer a question that it rests on: {refusal}"))
}

fn why(log: &Log, formula: &Formula) -> Result<Why, String> {
    let ways = ways::of(formula, true).ok_or("there is no chain: the question asks for moments at which something is on the way")?;
    let count = ways.len();
    let made = (1..).zip(ways).map(|(n, parts)| way(log, parts, &format!("way {n} of {count}")));
    Ok(Why { ways: made.collect::<Result<_, _>>()? })
}

fn way(log: &Log, mut parts: Vec<Part>, name: &str) -> Result<Way, String> {
    for part in &mut parts {
        complete(log, part)?;
    }
    let chosen = choices(&parts);
    let found = ruled_out(log, &parts, &chosen).ok_or_else(|| format!("fault of this tool: nothing was found that rules out {name}"))?;
    let case = |(before, (steps, end))| Case { before, steps, end };
    Ok(Way { cases: chosen.into_iter().zip(found).map(case).collect(), parts })
}

/// For each of some parts with possibly, the number of one of its moments.
type Choice = Vec<(usize, usize)>;

/// What rules out each case: by none of the moments chosen, by those of one part with possibly, or by those of all, whichever takes the
/// fewest sentences.
fn ruled_out(log: &Log, parts: &[Part], chosen: &[Choice]) -> Option<Vec<Found>> {
    let possibly: Vec<usize> = (0..parts.len()).filter(|p| matches!(parts[*p], Part::Possibly { .. })).collect();
    let mut sets = vec![vec![]];
    sets.extend(possibly.iter().map(|part| vec![*part]));
    sets.push(possibly);
    sets.dedup();
    let found = sets.iter().filter_map(|set| ruled_out_by(log, parts, chosen, set));
    found.min_by_key(|(sentences, _)| *sentences).map(|(_, each)| each)
}

/// What rules out each case by the moments of some parts alone, and the sentences that this takes.
fn ruled_out_by(log: &Log, parts: &[Part], chosen: &[Choice], set: &[usize]) -> Option<(usize, Vec<Found>)> {
    let mut known: Vec<(Choice, Found)> = vec![];
    let mut each = vec![];
    for choice in chosen {
        let choice: Choice = choice.iter().copied().filter(|(part, _)| set.contains(part)).collect();
        if !known.iter().any(|(c, _)| *c == choice) {
            known.push((choice.clone(), Rule::new(log, parts, &choice).ruled_out()?));
        }
        each.extend(known.iter().find(|(c, _)| *c == choice).map(|(_, found)| found.clone()));
    }
    Some((set.len() + known.iter().map(|(_, (steps, _))| steps.len() + 1).sum::<usize>(), each))
}

/// Gives a part with possibly or not possibly the moments of its formula, and why it has none.
fn complete(log: &Log, part: &mut Part) -> Result<(), String> {
    match part {
        Part::Range { .. } | Part::Clear { .. } => {}
        Part::NotPossibly { of, line, moments, .. } => Answer { line: *line, moments: *moments, .. } = asked(log, of)?,
        Part::Possibly { of, line, moments, why: never, .. } => {
            Answer { line: *line, moments: *moments, .. } = asked(log, of)?;
            *never = if moments.is_empty() { Some(why(log, of)?) } else { None };
        }
    }
    Ok(())
}

/// Every choice of a moment for each part with possibly, the last part's going up first.
fn choices(parts: &[Part]) -> Vec<Choice> {
    let mut chosen = vec![vec![]];
    for (at, part) in parts.iter().enumerate() {
        if let Part::Possibly { moments, .. } = part {
            chosen = chosen.iter().flat_map(|c| (0..moments.len()).map(move |m| [&c[..], &[(at, m)]].concat())).collect();
        }
    }
    chosen
}
