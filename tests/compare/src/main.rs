//! Compares the proved code with an independent implementation and a plain listing of every cut, on logs made from seeds.
//!
//! Usage: compare [LOGS] [SEED]      the logs of seeds SEED, SEED + 1, ...
//!        compare forecast FILE      compares nothing: what each question of a log can cost, and its answer
use compare::check::{compare, Case, Counts};
use compare::fault::{Fault, ALL, OF_PANELS};
use compare::forecasts;
use compare::guard::when_touched;
use compare::lent::Buffers;
use compare::log::PROGRAM;
use compare::merges;
use compare::pairs::Pair;
use compare::peak::WANTED;
use compare::sides;
use std::panic::{catch_unwind, AssertUnwindSafe};
use std::process::ExitCode;
use std::sync::atomic::{AtomicU64, Ordering::Relaxed};

/// The seed of the log at work.
static SEED: AtomicU64 = AtomicU64::new(0);

/// Memory was touched behind what was lent.
extern "C" fn touched(_: i32) {
    println!("`compare 1 {}` touches memory past what is lent", SEED.load(Relaxed));
    std::process::exit(1)
}

/// How many logs, and the first seed.
fn asked(words: &[String]) -> Result<(u64, u64), String> {
    let number = |i: usize, usual: u64| match words.get(i) {
        None => Ok(usual),
        Some(w) => w.parse().map_err(|_| format!("{w:?} is not a number from 0 to {}", u64::MAX)),
    };
    let (logs, first) = (number(0, 50_000)?, number(1, 20261115)?);
    match words {
        [_, _, more, ..] => Err(format!("one word too many: {more:?}")),
        _ if logs == 0 => Err("0 logs compare nothing".to_string()),
        _ if first.checked_add(logs).is_none() => Err(format!("{logs} logs from seed {first} on pass the largest seed")),
        _ => Ok((logs, first)),
    }
}

/// What was met too seldom for the run to say much: an outcome, a fault, one of panels with a header of kind 11, a refusal with such a
/// header, an end of a range, a way that a token 07, a token 08 or silence is met or what the safe layer says less than ten times in 4,000
/// logs, what is met of pairs of logs less than five times, a refusal of one of them, by its side, less than three times, a fault of panels
/// with a header of kind 10, a peak or a number of stations of large logs or of those with a header of kind 11 less than once, a side of a
/// limit less often than is wanted.
fn seldom(logs: u64, counts: &Counts) -> Vec<String> {
    let [no, yes] = counts.holds;
    let [none, one, several] = counts.answers;
    let [one_less, just] = counts.limit;
    let outcomes = [
        ("accepted", counts.accepted), ("no", no), ("yes", yes), ("none listed", none), ("one listed", one), ("several listed", several),
        ("one cell less", one_less), ("just the cells", just),
    ];
    let outcomes = outcomes.into_iter().map(|(name, n)| (name.to_string(), n, 10));
    let [plain, panels] = &counts.faults;
    let faults = ALL.iter().map(|f| (format!("{f:?}"), plain[*f as usize] + panels[*f as usize], 10));
    let of_panels = OF_PANELS.iter().flat_map(|f| {
        [(format!("{f:?} with header 10"), plain[*f as usize], 1), (format!("{f:?} with header 11"), panels[*f as usize], 10)]
    });
    let refusals = (1..).zip(refusals(panels)).map(|(number, n)| (format!("refusal {number} with header 11"), n, 10));
    let peaks = WANTED.iter().map(|(p, least)| (format!("{p:?} of {least}"), counts.peaks.of(*p).times, 1));
    let sides = sides::WANTED.iter().map(|(s, least)| (format!("{s:?}"), counts.sides.of(*s), *least));
    let stations = [("large", counts.large), ("header 11", counts.panels)].into_iter().flat_map(|(name, all)| {
        (1..).zip(all).map(move |(stations, n)| (format!("{name} of {stations} stations"), n, 1))
    });
    let ranges = counts.ranges.figures().flat_map(|(sort, figures)| prefixed(sort, figures));
    let tokens = [("07", counts.clears.figures()), ("08", counts.fields.figures()), ("08 told from", counts.fields.told())];
    let tokens = tokens.into_iter().flat_map(|(name, figures)| prefixed(name, figures));
    let layer = prefixed("safe layer's", counts.layer.figures());
    let pairs = counts.merges.figures().into_iter().map(|(name, n)| (format!("pairs: {name}"), n, 5));
    let pairs = pairs.chain(counts.merges.refusals().map(|(name, n)| (format!("pairs refused with {name}"), n, 3)));
    let seen = outcomes.chain(faults).chain(of_panels).chain(refusals).chain(peaks).chain(sides);
    let silences = counts.silences.figures().into_iter().flat_map(|(sort, figures)| prefixed(sort, figures));
    let seen = seen.chain(stations).chain(ranges).chain(tokens).chain(silences).chain(layer).chain(pairs);
    seen.filter(|(_, n, least)| (*n as u64) < logs / 4000 * least).map(|(name, n, _)| format!("{name} {n}")).collect()
}

/// How often each refusal was met, from 1 on.
fn refusals(faults: &[usize]) -> Vec<usize> {
    faults.chunks(16).skip(1).map(|kinds| kinds.iter().sum()).collect()
}

/// Figures that have to come to ten in 4,000 logs, under one name.
fn prefixed(name: &str, figures: Vec<(String, usize)>) -> impl Iterator<Item = (String, usize, u64)> + '_ {
    figures.into_iter().map(move |(which, n)| (format!("{name} {which}"), n, 10))
}

/// Figures in one line.
fn joined(figures: impl IntoIterator<Item = (String, usize)>) -> String {
    figures.into_iter().map(|(name, n)| format!("{name} {n}")).collect::<Vec<String>>().join(", ")
}

fn report(logs: u64, counts: &Counts) {
    let Counts { calls, accepted, holds, answers, limit, faults, peaks, sides, ranges, clears, fields, silences, large, panels, layer, merges } =
        counts;
    let reached: Vec<String> = WANTED.iter().map(|(p, _)| format!("{p:?} {} ({})", peaks.of(*p).most, peaks.of(*p).times)).collect();
    println!("{logs} logs, {accepted} accepted, {calls} calls, all equal");
    println!("Holds no and yes: {holds:?}; answers with no, one, several cuts: {answers:?}");
    let [plain, with] = faults.map(|faults| refusals(&faults));
    println!("refusals 1 to 18 without header 11: {plain:?}; with it: {with:?}");
    println!("workspaces refused for one cell less than forecast, accepted with just these cells: {limit:?}");
    println!("peaks (and how often what is wanted): {}", reached.join(", "));
    println!("sides of limits: {}", joined(sides::WANTED.iter().map(|(s, _)| (format!("{s:?}"), sides.of(*s)))));
    println!("accepted logs of more than {} events, by stations from 1: {large:?}; with header 11: {panels:?}", PROGRAM.events);
    ranges.figures().for_each(|(sort, figures)| println!("{sort}, tried {}", joined(figures)));
    let by_fault = |all: &[Fault], panels: usize| joined(all.iter().map(|f| (format!("{f:?}"), faults[panels][*f as usize])));
    let late: Vec<Fault> = ALL.into_iter().filter(|f| f.number() > 14).collect();
    println!("refusals 15 to 18 without header 11: {}; with it: {}", by_fault(&late, 0), by_fault(&late, 1));
    println!("faults of panels without header 11: {}; with it: {}", by_fault(&OF_PANELS, 0), by_fault(&OF_PANELS, 1));
    println!("tokens 07: {}", joined(clears.figures()));
    println!("tokens 08: {}", joined(fields.figures()));
    println!("answers that tell the panel from {}", joined(fields.told()));
    silences.figures().into_iter().for_each(|(sort, figures)| println!("{sort}: {}", joined(figures)));
    println!("by the safe layer, all equal too: {}", joined(layer.figures()));
    println!("pairs of logs: {}", joined(merges.figures()));
    println!("pairs refused for one log: {}", joined(merges.refusals()));
    if logs < 4000 {
        println!("under 4000 logs: how often each was met is not judged");
    }
}

/// Prints what a seed gives.
fn differs(seed: u64) {
    let Case { log, list, .. } = Case::new(seed);
    println!("`compare 1 {seed}` differs, on the log\n{}\nand the frame list\n{list:02X?}", log.escape_ascii());
    if let Some(Pair { first, second, .. }) = Pair::new(seed) {
        println!("or on the logs\n{}\nand\n{}", first.escape_ascii(), second.escape_ascii());
    }
}

/// Prints the forecasts and answers of a file's log.
fn foretell(file: &str) -> ExitCode {
    match std::fs::read(file) {
        Ok(log) => print!("{}", forecasts::all(&log)),
        Err(why) => {
            eprintln!("compare: {file}: {why}");
            return ExitCode::from(2);
        }
    }
    ExitCode::SUCCESS
}

fn main() -> ExitCode {
    let words: Vec<String> = std::env::args_os().skip(1).map(|w| w.to_string_lossy().into_owned()).collect();
    if let [word, file] = &words[..] {
        if word == "forecast" {
            return foretell(file);
        }
    }
    let (logs, first) = match asked(&words) {
        Ok(asked) => asked,
        Err(why) => {
            eprintln!("compare: {why} (usage: compare [LOGS] [SEED], or compare forecast FILE)");
            return ExitCode::from(2);
        }
    };
    let (mut lent, mut counts) = (Buffers::new(), Counts::new());
    when_touched(touched);
    for seed in first..first + logs {
        SEED.store(seed, Relaxed);
        let all_of_it = || {
            compare(Case::new(seed), &mut lent, &mut counts);
            Pair::new(seed).into_iter().for_each(|pair| merges::compare(pair, &mut lent, &mut counts));
        };
        if catch_unwind(AssertUnwindSafe(all_of_it)).is_err() {
            differs(seed);
            return ExitCode::FAILURE;
        }
    }
    report(logs, &counts);
    let seldom = seldom(logs, &counts);
    if seldom.is_empty() {
        return ExitCode::SUCCESS;
    }
    println!("too seldom: {}", seldom.join(", "));
    ExitCode::FAILURE
}
