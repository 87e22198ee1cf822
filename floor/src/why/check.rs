//! A chain checked by code that did not make it: the ways against the formula, the moments against the proved code, and that no case is
//! missing. What is wrong is named.
use super::replay::Replay;
use crate::chain::{Case, Part, Way, Why};
use crate::formula::Formula;
use crate::log::Log;

type Checked = Result<(), String>;

fn sure(right: bool, wrong: impl FnOnce() -> String) -> Checked {
    if right { Ok(()) } else { Err(wrong()) }
}

/// Whether the chain shows that the formula was never true.
pub fn why(log: &Log, formula: &Formula, why: &Why) -> Checked {
    let count = width(formula, true);
    sure(why.ways.len() == count, || format!("{} ways where the formula has {count}", why.ways.len()))?;
    for (i, w) in why.ways.iter().enumerate() {
        let (mut leaves, n) = (vec![], i + 1);
        leaves_of(formula, true, i, &mut leaves);
        way(log, &leaves, w).map_err(|at| format!("way {n} of {count}: {at}"))?;
    }
    Ok(())
}

/// Whether a sign's operands all have to be as they are asked for (else one of them is enough): "and" as true, "or" as false.
fn all_needed(formula: &Formula, sign: bool) -> bool {
    matches!(formula, Formula::And(..)) == sign
}

/// The number of a formula's ways to be true, or false.
fn width(formula: &Formula, sign: bool) -> usize {
    match formula {
        Formula::Not(p) => width(p, !sign),
        Formula::And(p, q) | Formula::Or(p, q) if all_needed(formula, sign) => width(p, sign) * width(q, sign),
        Formula::And(p, q) | Formula::Or(p, q) => width(p, sign) + width(q, sign),
        _ => 1,
    }
}

/// What has to be true, or false, in one of these ways.
fn leaves_of<'a>(formula: &'a Formula, sign: bool, way: usize, leaves: &mut Vec<(&'a Formula, bool)>) {
    match formula {
        Formula::Not(p) => leaves_of(p, !sign, way, leaves),
        Formula::And(p, q) | Formula::Or(p, q) if all_needed(formula, sign) => {
            let right = width(q, sign);
            leaves_of(p, sign, way / right, leaves);
            leaves_of(q, sign, way % right, leaves);
        }
        Formula::And(p, q) | Formula::Or(p, q) => match way.checked_sub(width(p, sign)) {
            None => leaves_of(p, sign, way, leaves),
            Some(rest) => leaves_of(q, sign, rest, leaves),
        },
        _ => leaves.push((formula, sign)),
    }
}

fn way(log: &Log, leaves: &[(&Formula, bool)], way: &Way) -> Checked {
    sure(way.parts.len() == leaves.len(), || format!("{} parts where the formula has {}", way.parts.len(), leaves.len()))?;
    for (i, (part, (leaf, sign))) in way.parts.iter().zip(leaves).enumerate() {
        sure(says(part, leaf, *sign), || format!("part {i} is not the formula's: {part:?}"))?;
        moments_of(log, part).map_err(|at| format!("part {i}: {at}"))?;
    }
    let open: Vec<(usize, usize)> = way.parts.iter().enumerate().filter_map(|(i, p)| chosen_from(p).map(|count| (i, count))).collect();
    let count = open.iter().map(|(_, count)| count).product();
    sure(way.cases.len() == count, || format!("{} cases where {count} are due", way.cases.len()))?;
    for (i, c) in way.cases.iter().enumerate() {
        case(log, way, &open, i, c).map_err(|at| format!("case {} of {count}: {at}", i + 1))?;
    }
    Ok(())
}

/// The moments that there are to choose from for a part with possibly.
fn chosen_from(part: &Part) -> Option<usize> {
    if let Part::Possibly { moments, .. } = part { Some(moments.len()) } else { None }
}

/// Whether a part says what the formula does.
fn says(part: &Part, leaf: &Formula, sign: bool) -> bool {
    let not = |p: &Formula, of: &Formula| matches!(of, Formula::Not(q) if **q == *p);
    match (part, leaf) {
        (Part::Range { inside, aspect, station, lo, hi }, Formula::Range { aspect: a, station: s, lo: l, hi: h }) => {
            (inside, aspect, station, lo, hi) == (&sign, a, s, l, h)
        }
        (Part::Clear { from, to }, Formula::Clear { from: f, to: t }) => sign && (from, to) == (f, t),
        (Part::Possibly { asked, of, .. }, Formula::Possibly(p)) => sign && asked == leaf && *of == **p,
        (Part::Possibly { asked, of, .. }, Formula::Always(p)) => !sign && not(leaf, asked) && not(p, of),
        (Part::NotPossibly { asked, of, .. }, Formula::Possibly(p)) => !sign && not(leaf, asked) && *of == **p,
        (Part::NotPossibly { asked, of, .. }, Formula::Always(p)) => sign && asked == leaf && not(p, of),
        _ => false,
    }
}

/// Whether a part has the moments that the proved code gives now, each true by Holds, and where it wants one and has none, why.
fn moments_of(log: &Log, part: &Part) -> Checked {
    match part {
        Part::Range { .. } | Part::Clear { .. } => Ok(()),
        Part::NotPossibly { of, line, moments, .. } => proved(log, of, line, moments),
        Part::Possibly { of, line, moments, why: never, .. } => {
            proved(log, of, line, moments)?;
            match never {
                Some(never) if moments.is_empty() => why(log, of, never),
                None if !moments.is_empty() => Ok(()),
                _ => Err("why there is no moment stands just where there is none".to_string()),
            }
        }
    }
}

fn proved(log: &Log, of: &Formula, line: &str, moments: &[Vec<u8>]) -> Checked {
    let refused = |refusal| format!("the proved code does not answer: {refusal}");
    let bytes = log.with_question(of).map_err(refused)?;
    let now = moment::answer(&bytes, 0).map_err(refused)?.line;
    sure(line == now, || format!("the proved line is {now}, not {line}"))?;
    sure(listed(line, log.stations.len()).as_deref() == Some(moments), || format!("the moments are not those of {line}"))?;
    for m in moments {
        let holds = moment::holds(&bytes, 0, m).map_err(refused)?;
        sure(holds, || format!("its formula is not true at {m:?}"))?;
    }
    Ok(())
}

/// The moments in an answer line: 40, start, their count, the moments, four bytes of rounds, check byte.
fn listed(line: &str, stations: usize) -> Option<Vec<Vec<u8>>> {
    let digit = |c: u8| (c as char).to_digit(16).map(|d| d as u8);
    let pair = |p: &[u8]| Some(digit(p[0])? * 16 + digit(*p.get(1)?)?);
    let bytes = line.as_bytes().chunks(2).map(pair).collect::<Option<Vec<u8>>>()?;
    let sum = bytes.iter().fold(0u8, |sum, b| sum.wrapping_add(*b));
    let [0x40, 0 | 1, count, cuts @ .., _, _, _, _, _] = &bytes[..] else { return None };
    (sum == 0 && cuts.len() == *count as usize * stations).then(|| cuts.chunks(stations).map(<[u8]>::to_vec).collect())
}

/// A case: the moments chosen, by its place among the cases, and its steps.
fn case(log: &Log, way: &Way, open: &[(usize, usize)], place: usize, case: &Case) -> Checked {
    let mut due = vec![];
    let mut rest = place;
    for (part, count) in open.iter().rev() {
        due.insert(0, (*part, rest % count));
        rest /= count;
    }
    sure(case.before == due, || format!("it chooses {:?} where {due:?} is due", case.before))?;
    let mut replay = Replay::new(log, &way.parts, &case.before);
    for (i, step) in case.steps.iter().enumerate() {
        replay.step(step).ok_or_else(|| format!("step {}, {step:?}, does not follow", i + 1))?;
    }
    sure(replay.ends(&case.end), || format!("the end, {:?}, does not follow", case.end))
}
