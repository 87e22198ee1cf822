//! Hosts as stations: what they are called in the day.
use super::source::quoted;
use super::trace::Trace;
use crate::names::{fits_name, is_name, is_word, LONGEST};
use std::collections::{HashMap, HashSet};

/// A host in an error: between quotes where its name is no name of the language.
pub fn shown(host: &str) -> String {
    if is_name(host) { host.to_string() } else { quoted(host) }
}

/// The hosts that have events, in the order of the file, and what each is called.
pub struct Hosts {
    pub list: Vec<usize>,
    /// By the hosts' numbers.
    names: Vec<String>,
    by_name: HashMap<String, usize>,
}

impl Hosts {
    pub fn of(trace: &Trace) -> Hosts {
        let mut seen = HashSet::new();
        let list: Vec<usize> = trace.events.iter().map(|event| event.host).filter(|host| seen.insert(*host)).collect();
        let mut names = vec![String::new(); trace.hosts.len()];
        let mut by_name = HashMap::new();
        let (kept, made): (Vec<usize>, Vec<usize>) = list.iter().partition(|&&host| is_name(&trace.hosts[host]));
        for host in kept {
            names[host] = trace.hosts[host].clone();
            by_name.insert(names[host].clone(), host);
        }
        let mut made_so_far = HashMap::new();
        for host in made {
            let name = stem(&trace.hosts[host]);
            let count: &mut usize = made_so_far.entry(name.clone()).or_default();
            names[host] = distinct(&name, count, &by_name);
            by_name.insert(names[host].clone(), host);
        }
        Hosts { list, names, by_name }
    }

    pub fn name(&self, host: usize) -> &str {
        &self.names[host]
    }

    /// The host that is called so, by its own name or by that of its station.
    pub fn find(&self, trace: &Trace, name: &str) -> Result<usize, String> {
        let own = trace.named(name).filter(|&host| !self.names[host].is_empty());
        own.or(self.by_name.get(name).copied()).ok_or_else(|| {
            let mut all: Vec<&str> = self.list.iter().take(20).map(|&host| self.name(host)).collect();
            if self.list.len() > all.len() {
                all.push("...");
            }
            format!("no host {} in the file; its hosts are {}", quoted(name), all.join(", "))
        })
    }

    /// What a station is called whose host has another name.
    pub fn renamed(&self, trace: &Trace, host: usize) -> Option<String> {
        let own = &trace.hosts[host];
        if self.name(host) == own { None } else { Some(format!("station {} is host {}", self.name(host), quoted(own))) }
    }
}

/// A name made of a host's: other characters become _, h is put before what is no letter, and _ behind a word of the language. It leaves
/// room for a number behind it.
fn stem(host: &str) -> String {
    let name: String = host.chars().map(|c| if fits_name(c) { c } else { '_' }).take(LONGEST - 10).collect();
    let name = if name.starts_with(char::is_alphabetic) { name } else { format!("h{name}") };
    if is_word(&name) { name + "_" } else { name }
}

/// The name, or the first of name_2, name_3, ... that no other station has. The count is of those tried before.
fn distinct(name: &str, count: &mut usize, taken: &HashMap<String, usize>) -> String {
    loop {
        *count += 1;
        let tried = if *count == 1 { name.to_string() } else { format!("{name}_{count}") };
        if !taken.contains_key(&tried) {
            return tried;
        }
    }
}
