//! The ways in which a formula is true.
use crate::chain::Part;
use crate::formula::Formula;

/// The parts of each way in which the formula is true, or false, by the sign; those with possibly and not possibly without their moments.
/// None where "nothing on the way" would have to be false, which the proved code refuses.
pub fn of(formula: &Formula, sign: bool) -> Option<Vec<Vec<Part>>> {
    let part = match (formula, sign) {
        (Formula::Not(p), _) => return of(p, !sign),
        (Formula::And(p, q), true) | (Formula::Or(p, q), false) => return Some(pairs(&of(p, sign)?, &of(q, sign)?)),
        (Formula::And(p, q), false) | (Formula::Or(p, q), true) => return Some([of(p, sign)?, of(q, sign)?].concat()),
        (&Formula::Range { aspect, station, lo, hi }, inside) => Part::Range { inside, aspect, station, lo, hi },
        (&Formula::Clear { from, to }, true) => Part::Clear { from, to },
        (Formula::Clear { .. }, false) => return None,
        (Formula::Possibly(p), true) => possibly(formula.clone(), (**p).clone()),
        (Formula::Possibly(p), false) => not_possibly(Formula::Not(Box::new(formula.clone())), (**p).clone()),
        (Formula::Always(p), true) => not_possibly(formula.clone(), Formula::Not(p.clone())),
        (Formula::Always(p), false) => possibly(Formula::Not(Box::new(formula.clone())), Formula::Not(p.clone())),
    };
    Some(vec![vec![part]])
}

fn pairs(left: &[Vec<Part>], right: &[Vec<Part>]) -> Vec<Vec<Part>> {
    left.iter().flat_map(|l| right.iter().map(move |r| [&l[..], r].concat())).collect()
}

fn possibly(asked: Formula, of: Formula) -> Part {
    Part::Possibly { asked, of, line: String::new(), moments: vec![], why: None }
}

fn not_possibly(asked: Formula, of: Formula) -> Part {
    Part::NotPossibly { asked, of, line: String::new(), moments: vec![] }
}
