//! A chain in words: its ways and cases.
use super::replay::Replay;
use super::sentences::Sentences;
use crate::chain::{Case, Part, Way, Why};
use crate::formula::Formula;
use crate::log::Log;
use crate::names::Names;

/// What words need: the log, names, and where a line of the log stands.
pub struct Teller<'a> {
    pub log: &'a Log,
    pub names: &'a Names,
    pub place: &'a dyn Fn(usize) -> String,
}

/// For each of some parts with possibly, the number of one of its moments.
type Choice = Vec<(usize, usize)>;

fn headed(head: String, lines: Vec<String>) -> Vec<String> {
    std::iter::once(head).chain(lines.iter().map(|line| format!("  {line}"))).collect()
}

impl Teller<'_> {
    /// Each way under its head, where there are several; one that is ruled out as an earlier one is says so.
    pub fn why(&self, why: &Why) -> Vec<String> {
        let ways: Vec<Vec<String>> = why.ways.iter().map(|way| self.way(way)).collect();
        if let [only] = &ways[..] {
            return only.clone();
        }
        let told = ways.iter().enumerate().map(|(i, lines)| {
            let head = format!("way {} of {}: {}", i + 1, ways.len(), self.all_of(&why.ways[i].parts.iter().collect::<Vec<_>>()));
            match ways.iter().position(|earlier| earlier == lines) {
                Some(first) if first < i => headed(head, vec![format!("ruled out just as way {} is.", first + 1)]),
                _ => headed(head, lines.clone()),
            }
        });
        told.flatten().collect()
    }

    fn way(&self, way: &Way) -> Vec<String> {
        let impossible = way.parts.iter().filter_map(|part| self.impossible(part));
        if let Some(shortest) = impossible.min_by_key(Vec::len) {
            return shortest;
        }
        let used = self.used(way);
        let mut cases: Vec<(Choice, &Case)> = vec![];
        for case in &way.cases {
            let before = chosen(case, &used);
            if !cases.iter().any(|(b, _)| *b == before) {
                cases.push((before, case));
            }
        }
        match &cases[..] {
            [(_, only)] => [self.limits(way, &used, false), self.chain(way, only)].concat(),
            cases => [self.limits(way, &used, true), self.cases(way, &used, cases)].concat(),
        }
    }

    /// Why a part with possibly is never true, where it has no moment.
    fn impossible(&self, part: &Part) -> Option<Vec<String>> {
        let Part::Possibly { of, line, why: Some(why), .. } = part else { return None };
        let (asked, fact) = (self.quoted(&self.asked(part)), self.holds(of, "never "));
        Some(headed(format!("{asked} is never true, since {fact} (proved: {line}):"), self.why(why)))
    }

    /// The parts with possibly without whose moments some case would not follow.
    fn used(&self, way: &Way) -> Vec<usize> {
        let follows = |case: &Case, parts: &[usize]| {
            let mut replay = Replay::new(self.log, &way.parts, &chosen(case, parts));
            case.steps.iter().all(|step| replay.step(step).is_some()) && replay.ends(&case.end)
        };
        let mut used: Vec<usize> = (0..way.parts.len()).filter(|p| matches!(way.parts[*p], Part::Possibly { .. })).collect();
        for part in used.clone() {
            let without: Vec<usize> = used.iter().copied().filter(|p| *p != part).collect();
            if way.cases.iter().all(|case| follows(case, &without)) {
                used = without;
            }
        }
        used
    }

    /// Up to which moments the parts with possibly are true, these numbered through the parts where there are several cases.
    fn limits(&self, way: &Way, used: &[usize], numbered: bool) -> Vec<String> {
        let mut lines = vec![];
        for part in used {
            let Part::Possibly { of, line, moments, .. } = &way.parts[*part] else { continue };
            let head = format!("{} is true only at moments that go no further than", self.quoted(&self.asked(&way.parts[*part])));
            let (first, of) = (first_number(way, used, *part), self.holds(of, ""));
            match &moments[..] {
                [one] => {
                    let number = if numbered { format!(", moment {first}") } else { String::new() };
                    lines.push(format!("{head} the greatest moment at which {of}{number} ({}; proved: {line});", self.events(one)));
                }
                several => {
                    let told = (first..).zip(several).map(|(n, m)| format!("moment {n} ({});", self.events(m))).collect();
                    lines.extend(headed(format!("{head} one of the greatest moments at which {of} (proved: {line}):"), told));
                }
            }
        }
        lines
    }

    /// The cases, each under the numbers of its moments; those with the same steps together.
    fn cases(&self, way: &Way, used: &[usize], cases: &[(Choice, &Case)]) -> Vec<String> {
        let mut groups: Vec<(Vec<String>, &Case)> = vec![];
        for (before, case) in cases {
            let numbers: Vec<String> = before.iter().map(|(part, moment)| (first_number(way, used, *part) + moment).to_string()).collect();
            let head = match &numbers[..] {
                [one] => format!("moment {one}"),
                numbers => format!("moments {}", numbers.join(" and ")),
            };
            match groups.iter_mut().find(|(_, c)| (&c.steps, &c.end) == (&case.steps, &case.end)) {
                Some((all, _)) => all.push(head),
                None => groups.push((vec![head], case)),
            }
        }
        groups.iter().flat_map(|(heads, case)| headed(format!("up to {}:", heads.join(" or ")), self.chain(way, case))).collect()
    }

    fn chain(&self, way: &Way, case: &Case) -> Vec<String> {
        Sentences { teller: self, way }.of(case)
    }

    /// What parts ask for together.
    pub fn all_of(&self, parts: &[&Part]) -> String {
        let parts = parts.iter().map(|part| self.asked(part));
        let all = parts.reduce(|all, part| Formula::And(Box::new(all), Box::new(part)));
        all.map_or(String::new(), |all| all.words(self.names))
    }

    /// A part as it was asked for.
    pub fn asked(&self, part: &Part) -> Formula {
        match part {
            Part::Range { inside, aspect, station, lo, hi } => {
                let range = Formula::Range { aspect: *aspect, station: *station, lo: *lo, hi: *hi };
                if *inside { range } else { Formula::Not(Box::new(range)) }
            }
            Part::Clear { from, to } => Formula::Clear { from: *from, to: *to },
            Part::Possibly { asked, .. } | Part::NotPossibly { asked, .. } => asked.clone(),
        }
    }

    /// "\"desk is 60\" is true", or, of "not desk is 60", "\"desk is 60\" is false"; `when` is a word before "true".
    pub fn holds(&self, formula: &Formula, when: &str) -> String {
        match formula {
            Formula::Not(p) => match &**p {
                Formula::Not(q) => self.holds(q, when),
                p => format!("{} is {when}false", self.quoted(p)),
            },
            formula => format!("{} is {when}true", self.quoted(formula)),
        }
    }

    pub fn quoted(&self, formula: &Formula) -> String {
        format!("\"{}\"", formula.words(self.names))
    }

    /// How many events of each station have happened at a moment: "events: desk 2, table 1".
    pub fn events(&self, cut: &[u8]) -> String {
        let told = cut.iter().enumerate().map(|(station, count)| format!("{} {count}", self.names.station(station)));
        format!("events: {}", told.collect::<Vec<String>>().join(", "))
    }
}

/// A case's choice for some parts alone.
fn chosen(case: &Case, parts: &[usize]) -> Choice {
    case.before.iter().copied().filter(|(part, _)| parts.contains(part)).collect()
}

/// The number of a part's first moment, where those of the parts used are counted through from 1.
fn first_number(way: &Way, used: &[usize], part: usize) -> usize {
    let count = |p: &usize| if let Part::Possibly { moments, .. } = &way.parts[*p] { moments.len() } else { 0 };
    1 + used.iter().filter(|p| **p < part).map(count).sum::<usize>()
}
