//! The same question put to the model checker Spin, where it is installed.
use crate::codes::head;
use crate::timed::micros;
use compare::draw::Draw;
use compare::formula::Token;
use compare::listing;
use compare::log::{line, Log, OPERATIONS};
use compare::made::{self, Shape};
use compare::operations::{BARS, LINE, WORKSPACE};
use moment::lent as proved;
use std::fmt::Write;
use std::process::{Command, Output};

const FOLDER: &str = "target/bench";
const SECONDS: &str = "180";

/// The answer line of question 0.
fn answer(data: &[u8]) -> Vec<u8> {
    let mut out = vec![0; LINE];
    let n = proved::answer(data, 0, &mut vec![0; WORKSPACE], &mut vec![0; BARS], &mut out).unwrap();
    out.truncate(n);
    out
}

/// A log in which a station's value is the number of its events so far, and one question: two values in a row at each station. Each
/// station has them, and there is no moment at which all have.
fn never_log(stations: usize, events: usize) -> Vec<u8> {
    let shape = Shape { stations, events, questions: 0, ranges: 0, step: 0, zero: 0 };
    let log = |seed| {
        let d = &mut Draw(seed);
        let mut fs = vec![made::header(d, shape)];
        fs.extend(made::events(d, shape, 3));
        let (mut question, mut counts) = ([vec![0x30], vec![3; stations - 1]].concat(), vec![0; stations]);
        for f in &mut fs[1..] {
            counts[f[1] as usize] += 1;
            f[3] = counts[f[1] as usize];
        }
        for (j, &k) in counts.iter().enumerate() {
            let lo = 1 + d.below(k.max(2) as usize - 1) as u8;
            question.extend([1, j as u8, 0, lo, 0, lo + 1]);
        }
        (counts, [made::lines(&fs), line(&question)].concat())
    };
    let never = |(counts, data): &(Vec<u8>, Vec<u8>)| counts.iter().all(|&k| k > 1) && answer(data).starts_with(b"400000");
    (0..).map(log).find(never).unwrap().1
}

/// A Promela model with a process for each station, whose states are the consistent cuts.
fn promela(log: &Log) -> String {
    let ranges = log.questions[0].iter().filter_map(|t| match t {
        Token::Range { station, lo, hi, .. } => Some(format!("c[{station}] >= {lo} && c[{station}] <= {hi}")),
        _ => None,
    });
    let mut model = format!("byte c[{}];\n#define asked ({})\n", log.stations(), ranges.collect::<Vec<_>>().join(" && "));
    for (j, events) in log.history.iter().enumerate() {
        writeln!(model, "active proctype station{j}() {{").unwrap();
        for (k, e) in events.iter().enumerate().skip(1) {
            let seen = e.clock.iter().enumerate().filter(|&(i, &x)| i != j && x > 0).map(|(i, x)| format!("c[{i}] >= {x} && "));
            writeln!(model, "  d_step {{ {}true -> c[{j}] = {k}; assert(!asked) }};", seen.collect::<String>()).unwrap();
        }
        model += "end: false\n}\n";
    }
    model
}

fn run(command: &[&str]) -> Option<Output> {
    Command::new(command[0]).args(&command[1..]).current_dir(FOLDER).output().ok()
}

/// The processor time of the processes started here that have ended, in seconds.
fn ended() -> f64 {
    extern "C" {
        fn getrusage(who: i32, usage: *mut [i64; 18]) -> i32;
    }
    const CHILDREN: i32 = -1;
    let mut usage = [0; 18];
    assert_eq!(unsafe { getrusage(CHILDREN, &mut usage) }, 0);
    (usage[0] + usage[2]) as f64 + (usage[1] + usage[3]) as f64 / 1e6
}

/// The states of the model that Spin's verifier stores, whether these are all, and its seconds.
fn verified() -> Option<(String, bool, f64)> {
    run(&["spin", "-a", "cuts.pml"])?;
    run(&["cc", "-O2", "-DSAFETY", "-DMEMLIM=6000", "-o", "pan", "pan.c"])?;
    let before = ended();
    let out = run(&["timeout", "-s", "INT", SECONDS, "./pan", "-m100000"])?;
    let seconds = ended() - before;
    let told = String::from_utf8_lossy(&out.stdout).into_owned();
    let states = told.lines().find(|l| l.contains("states, stored"))?.split_whitespace().next()?.into();
    assert!(told.contains("errors: 0"), "Spin finds a moment");
    Some((states, !told.contains("Search not completed"), seconds))
}

pub fn section() -> String {
    let mut page = include_str!("spin.md").replace("SECONDS", SECONDS);
    let installed = run(&["spin", "-V"]).is_some();
    if !installed {
        page += "Spin (Debian's package `spin`) was not installed when this page was made: its columns are empty.\n\n";
    }
    page += &head("| stations | events | consistent cuts | Spin: states | Spin: seconds | proved: microseconds |".into());
    for (stations, events) in [(2, 32), (4, 32), (4, 64), (4, 127), (6, 64), (8, 64), (8, 127)] {
        let data = never_log(stations, events);
        let log = Log::read(OPERATIONS, &data).unwrap();
        let cuts = if listing::count(&log) <= 5_000_000 { listing::consistent(&log).len().to_string() } else { "-".into() };
        std::fs::write(format!("{FOLDER}/cuts.pml"), promela(&log)).unwrap();
        let spin = match installed.then(verified).flatten() {
            None => "- | -".into(),
            Some((states, false, seconds)) => format!("{states}, not done | {seconds:.2}"),
            Some((states, true, seconds)) => {
                assert!(cuts == "-" || cuts == states, "Spin's states are not the consistent cuts");
                format!("{states} | {seconds:.2}")
            }
        };
        let (mut ws, mut bs, mut out) = (vec![1; WORKSPACE], vec![1; BARS], vec![1; LINE]);
        let ours = micros(|| (0..100).for_each(|_| _ = proved::answer(&data, 0, &mut ws, &mut bs, &mut out))) / 100.0;
        writeln!(page, "| {stations} | {events} | {cuts} | {spin} | {ours:.0} |").unwrap();
    }
    page
}
