//! The options as they are meant for the hosts of the file.
use super::hosts::Hosts;
use super::options::Options;
use super::trace::Trace;
use super::values::Ruled;
use crate::failure::Failure;
use std::collections::HashMap;

pub struct Chosen<'o> {
    /// The hosts that are kept, in the order of their stations.
    pub hosts: Vec<usize>,
    /// For each host of the file its station, if it is kept.
    pub stations: Vec<Option<usize>>,
    pub rules: Vec<Ruled<'o>>,
    /// For each station what it reports before the first event of the file, where that is given.
    pub initially: Vec<Option<u16>>,
}

impl<'o> Chosen<'o> {
    /// The options, or all names in them that are not of the file or stand twice.
    pub fn of(options: &'o Options, trace: &Trace, hosts: &Hosts) -> Result<Chosen<'o>, Failure> {
        let mut errors = vec![];
        let kept = kept(options, trace, hosts, &mut errors);
        let mut stations = vec![None; trace.hosts.len()];
        for (station, &host) in kept.iter().enumerate() {
            if stations[host].replace(station).is_some() {
                errors.push(format!("--hosts: {} is named twice", hosts.name(host)));
            }
        }
        let mut rules = vec![];
        for rule in &options.rules {
            match meant(&rule.host, "--value", trace, hosts) {
                Ok(host) => rules.push((rule, host)),
                Err(why) => errors.push(why),
            }
        }
        let initially = initially(options, trace, hosts, &mut errors);
        let initially = kept.iter().map(|&host| initially.get(&Some(host)).or(initially.get(&None)).copied()).collect();
        if errors.is_empty() { Ok(Chosen { hosts: kept, stations, rules, initially }) } else { Err(Failure::Words(errors)) }
    }
}

/// The host that a name is for; none where it is *, for all.
fn meant(name: &str, option: &str, trace: &Trace, hosts: &Hosts) -> Result<Option<usize>, String> {
    if name == "*" { Ok(None) } else { hosts.find(trace, name).map(Some).map_err(|why| format!("{option}: {why}")) }
}

/// Those of --hosts, or all.
fn kept(options: &Options, trace: &Trace, hosts: &Hosts, errors: &mut Vec<String>) -> Vec<usize> {
    if options.hosts.is_empty() {
        return hosts.list.clone();
    }
    let found = |name: &String| hosts.find(trace, name).map_err(|why| errors.push(format!("--hosts: {why}"))).ok();
    options.hosts.iter().filter_map(found).collect()
}

/// What --initially gives to hosts, or to all.
fn initially(options: &Options, trace: &Trace, hosts: &Hosts, errors: &mut Vec<String>) -> HashMap<Option<usize>, u16> {
    let mut given = HashMap::new();
    for (name, value) in &options.initially {
        match meant(name, "--initially", trace, hosts) {
            Ok(host) if given.insert(host, *value).is_some() => errors.push(format!("--initially: {name} is given twice")),
            Ok(_) => {}
            Err(why) => errors.push(why),
        }
    }
    given
}
