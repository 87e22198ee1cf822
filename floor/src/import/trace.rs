//! The events of an imported file.
use super::source::{plain, quoted};
use crate::json::Json;
use std::collections::HashMap;

/// How many events of each host lie before an event or are it: host and count, by hosts, without those of which there are none.
pub struct Clock(Vec<(usize, u32)>);

pub struct Event {
    pub line: usize,
    pub host: usize,
    pub clock: Clock,
    pub text: String,
}

/// Hosts go by numbers, in the order in which they are first named.
#[derive(Default)]
pub struct Trace {
    pub hosts: Vec<String>,
    numbers: HashMap<String, usize>,
    pub events: Vec<Event>,
    /// Fields of the file that have no use here.
    pub unused: Vec<String>,
}

impl Clock {
    pub fn of(&self, host: usize) -> u32 {
        self.0.binary_search_by_key(&host, |(h, _)| *h).map_or(0, |i| self.0[i].1)
    }

    pub fn entries(&self) -> impl Iterator<Item = (usize, u32)> + '_ {
        self.0.iter().copied()
    }
}

impl Event {
    /// Its number among those of its host, from 1.
    pub fn number(&self) -> u32 {
        self.clock.of(self.host)
    }
}

impl Trace {
    fn host(&mut self, name: &str) -> usize {
        if let Some(number) = self.numbers.get(name) {
            return *number;
        }
        self.hosts.push(name.to_string());
        self.numbers.insert(name.to_string(), self.hosts.len() - 1);
        self.hosts.len() - 1
    }

    /// The number of a host that the file names.
    pub fn named(&self, name: &str) -> Option<usize> {
        self.numbers.get(name).copied()
    }

    /// One more event, or what is wrong with it.
    pub fn add(&mut self, line: usize, name: &str, clock: &Json, text: &str) -> Result<(), String> {
        if name.is_empty() {
            return Err("the host has no name".to_string());
        }
        let Json::Object(fields) = clock else {
            return Err(format!("the clock is no JSON object such as {{\"{}\":1}}", plain(name)));
        };
        let host = self.host(name);
        let mut entries = vec![];
        for (of, count) in fields {
            let count = whole(count).ok_or_else(|| entry_due(of, count))?;
            entries.push((self.host(of), count));
        }
        match entries.iter().find(|(h, _)| *h == host) {
            None => return Err(format!("the clock has no entry of its own host, {}", quoted(name))),
            Some((_, 0)) => return Err(format!("the clock's entry of its own host, {}, is 0: events count from 1", quoted(name))),
            _ => {}
        }
        entries.retain(|(_, count)| *count > 0);
        entries.sort_unstable();
        self.events.push(Event { line, host, clock: Clock(entries), text: text.to_string() });
        Ok(())
    }
}

/// The most that an entry of a clock may be, more than a file can have events.
const COUNT: u32 = 999_999_999;

/// A count that is written as a whole number.
fn whole(json: &Json) -> Option<u32> {
    match json {
        Json::Number(n) if n.fract() == 0.0 && (0.0..=f64::from(COUNT)).contains(n) => Some(*n as u32),
        _ => None,
    }
}

fn entry_due(host: &str, found: &Json) -> String {
    format!("the clock's entry of {} is {}: a whole number from 0 to {COUNT} is due", quoted(host), plain(&found.to_string()))
}

/// The most fields of a line. Reading them takes time by their square.
const FIELDS: usize = 256;

/// A line's JSON, or what is wrong with it.
pub fn json(text: &str) -> Result<Json, String> {
    if fields(text) > FIELDS {
        return Err(format!("more than {FIELDS} fields on a line"));
    }
    Json::parse(text)
}

/// Colons outside of texts: as many as fields.
fn fields(text: &str) -> usize {
    let (mut count, mut quoted, mut escaped) = (0, false, false);
    for b in text.bytes() {
        match b {
            _ if escaped => escaped = false,
            b'\\' if quoted => escaped = true,
            b'"' => quoted = !quoted,
            b':' if !quoted => count += 1,
            _ => {}
        }
    }
    count
}
