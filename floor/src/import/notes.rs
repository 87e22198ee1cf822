//! What is told of an import: what was taken, and all that was not.
use super::source::{plain, quoted};
use super::values::Ruled;
use super::window::{Kept, Part};
use super::Import;
use crate::names::Names;

pub fn all(import: &Import) -> Vec<String> {
    let (events, hosts) = (counted(import.trace.events.len(), "event"), counted(import.hosts.list.len(), "host"));
    let mut notes = vec![format!("{}: {events} of {hosts}", plain(import.file))];
    notes.extend(import.chosen.hosts.iter().filter_map(|&host| import.hosts.renamed(import.trace, host)));
    notes.extend(left_out(import));
    notes.extend(window(import));
    notes.extend(rules(import));
    notes.extend(values(import));
    notes.extend(unused(import));
    notes
}

fn counted(count: usize, of: &str) -> String {
    format!("{count} {of}{}", if count == 1 { "" } else { "s" })
}

/// Some of the names, and how many there are more.
fn listed(names: Vec<String>) -> String {
    const SHOWN: usize = 20;
    let shown = names[..names.len().min(SHOWN)].join(", ");
    if names.len() > SHOWN { format!("{shown} and {} more", names.len() - SHOWN) } else { shown }
}

/// The hosts that --hosts does not name, and those that have no event.
fn left_out(import: &Import) -> Vec<String> {
    let Import { trace, hosts, chosen, table, .. } = import;
    let out = hosts.list.iter().filter(|&&host| chosen.stations[host].is_none());
    let out: Vec<String> = out.map(|&host| format!("{} ({})", hosts.name(host), counted(table.count(host), "event"))).collect();
    let idle: Vec<String> = (0..trace.hosts.len()).filter(|&host| table.count(host) == 0).map(|host| quoted(&trace.hosts[host])).collect();
    let mut notes = vec![];
    if !out.is_empty() {
        notes.push(format!("left out by --hosts: {}; what is asked of the hosts kept has the same answer without them", listed(out)));
    }
    if !idle.is_empty() {
        notes.push(format!("no station for hosts that clocks name with 0 and that have no event: {}", listed(idle)));
    }
    notes
}

/// What a window leaves out.
fn window(import: &Import) -> Vec<String> {
    let Import { part, window: (from, to), .. } = import;
    let Part { events, before, after, .. } = part;
    let all = before.iter().chain(after).sum::<u32>() as usize + events.len();
    if all == events.len() {
        return vec![];
    }
    let place = |at: Option<&Kept>| at.map_or(String::new(), |kept| format!("line {}", import.trace.events[kept.event].line));
    let counts = |counts: &[u32]| {
        let some = counts.iter().zip(&import.chosen.hosts).filter(|(count, _)| **count > 0);
        let some = some.map(|(&count, &host)| format!("{} of {}", counted(count as usize, "event"), import.hosts.name(host)));
        let some: Vec<String> = some.collect();
        if some.is_empty() { "nothing".to_string() } else { some.join(", ") }
    };
    vec![
        format!("window {from}..{to} of {all} events: from {} to {} of the file", place(events.first()), place(events.last())),
        format!("left out before the window, with the last values as the initial ones: {}; after it: {}", counts(before), counts(after)),
        "a moment of this day has all events before the window and none after it; never, possibly and always are of these only".to_string(),
    ]
}

fn rules(import: &Import) -> Vec<String> {
    let told = |(r, (rule, host)): (usize, &Ruled)| {
        let asked = counted(import.reports.asked[r], "event");
        let of = match import.reports.used[r] {
            _ if host.is_some_and(|host| import.chosen.stations[host].is_none()) => "is not used: its host is left out".to_string(),
            0 => format!("gives the value of NONE of {asked}: is the pattern right?"),
            used => format!("gives the value of {used} of {asked}"),
        };
        format!("--value '{}' {of}", plain(&rule.words))
    };
    import.chosen.rules.iter().enumerate().map(told).collect()
}

/// The stations whose values come from no event, all day or up to the first report.
fn values(import: &Import) -> Vec<String> {
    let Import { trace, chosen, reports, hosts, part, .. } = import;
    let reporting = |host: usize| trace.events.iter().zip(&reports.values).any(|(event, value)| event.host == host && value.is_some());
    let mut notes = vec![];
    let mut at_first = vec![];
    for ((&host, initially), reported) in chosen.hosts.iter().zip(&chosen.initially).zip(&part.reported) {
        let name = hosts.name(host).to_string();
        if !reporting(host) {
            let ruled = chosen.rules.iter().any(|(_, of)| of.map_or(true, |of| of == host));
            let why = if ruled { "no --value for it fits an event" } else { "there is no --value for it" };
            notes.push(format!("{name} is {} all day: {why}", Names::default().report(0, initially.unwrap_or(0))));
        } else if initially.is_none() && !reported {
            at_first.push(name);
        }
    }
    if !at_first.is_empty() {
        notes.push(format!("0 up to the first report, since --initially gives no other value: {}", at_first.join(", ")));
    }
    notes
}

/// Fields without a use, and --initially for hosts that are left out.
fn unused(import: &Import) -> Vec<String> {
    let mut notes = vec![];
    if !import.trace.unused.is_empty() {
        notes.push(format!("fields not used: {}", listed(import.trace.unused.iter().map(|name| plain(name)).collect())));
    }
    for (name, _) in &import.options.initially {
        let host = import.hosts.find(import.trace, name).ok();
        if host.is_some_and(|host| import.chosen.stations[host].is_none()) {
            notes.push(format!("--initially {}: its host is left out", plain(name)));
        }
    }
    notes
}
