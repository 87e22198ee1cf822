//! What events report: values taken from their texts by patterns.
use super::faults::Faults;
use super::pattern::Pattern;
use super::source::{number, plain, quoted, value};
use super::trace::Trace;

/// `NAME=PATTERN`, or `NAME=PATTERN=>VALUE`: an event of the host whose text has the pattern reports the number of its first group, or the
/// value. The last => of the words is the one that counts; in a pattern it is written `=\>`. A host with = in its name goes by that of its
/// station.
pub struct Rule {
    pub words: String,
    pub host: String,
    pattern: Pattern,
    value: Option<u16>,
}

impl Rule {
    pub fn read(words: &str) -> Result<Rule, String> {
        let wrong = |why: &str| format!("--value '{}': {why}", plain(words));
        let (host, rest) = words.split_once('=').filter(|(host, _)| !host.is_empty()).ok_or_else(|| wrong("NAME=PATTERN is due"))?;
        let (pattern, given) = rest.rsplit_once("=>").map_or((rest, None), |(pattern, given)| (pattern, Some(given)));
        let due = || wrong("behind => a number from 0 to 65534 or silent is due");
        let value = given.map(|given| value(given).ok_or_else(due)).transpose()?;
        if pattern.is_empty() {
            return Err(wrong("the pattern is empty"));
        }
        let pattern = Pattern::read(pattern).map_err(|why| wrong(&why))?;
        if pattern.groups == 0 && value.is_none() {
            return Err(wrong("the pattern has no group ( ) for the number; a value without one is given as PATTERN=>VALUE"));
        }
        Ok(Rule { words: words.to_string(), host: host.to_string(), pattern, value })
    }

    /// The value of a text that has the pattern, or what is wrong with it.
    fn report(&self, text: &str) -> Option<Result<u16, String>> {
        let taken = self.pattern.find(text)?;
        if let Some(value) = self.value {
            return Some(Ok(value));
        }
        let found = taken.map_or("nothing".to_string(), quoted);
        let wrong = || format!("--value '{}' takes {found} from {}: a number from 0 to 65534 is due", plain(&self.words), quoted(text));
        Some(taken.and_then(number).ok_or_else(wrong))
    }
}

/// A rule, and the one host that it is for, or all.
pub type Ruled<'r> = (&'r Rule, Option<usize>);

/// For each event what it reports, if a rule fits it; for each rule how many events report by it, of how many that it is for.
pub struct Reports {
    pub values: Vec<Option<u16>>,
    pub used: Vec<usize>,
    pub asked: Vec<usize>,
}

/// The reports of the events of hosts that are kept. Of the rules for a host the first that fits counts.
pub fn reports(trace: &Trace, rules: &[Ruled], kept: &[Option<usize>], faults: &mut Faults) -> Reports {
    let mut reports = Reports { values: vec![None; trace.events.len()], used: vec![0; rules.len()], asked: vec![0; rules.len()] };
    for (i, event) in trace.events.iter().enumerate().filter(|(_, event)| kept[event.host].is_some()) {
        let mut for_it = (0..rules.len()).filter(|&r| rules[r].1.map_or(true, |host| host == event.host));
        for_it.clone().for_each(|r| reports.asked[r] += 1);
        match for_it.find_map(|r| Some((r, rules[r].0.report(&event.text)?))) {
            Some((r, Ok(value))) => {
                reports.values[i] = Some(value);
                reports.used[r] += 1;
            }
            Some((_, Err(why))) => faults.at(event.line, || why),
            None => {}
        }
    }
    reports
}
