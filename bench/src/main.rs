//! Measures the proved code beside other codes and a plain listing of every cut, and writes PERFORMANCE.md with a plot.
//!
//! Usage: bench [FOLDER]      from the repository's root, after `tools/build.sh moments` and `tools/build.sh exports`; FOLDER: docs; exit code 2
//!                            and one line where something that it needs is not there
//!        bench run           the times of one run, a line for each log and code
//!        bench print CODE    answers a log from standard input by another code: `independent`, `plain` or `fast`
//!        bench read TIMES    reads a log from standard input that many times by Read of the proved code
//!        bench answer CODE TIMES      answers each of 16 questions of a log from standard input that many times by Answer of a code,
//!                                     `proved` or one of those
//!        bench check [LOGS] [SEED]    compares what the other codes print and answer, on the corpus and on logs of the comparison
mod arena;
mod check;
mod codes;
mod counted;
mod fast;
mod once;
mod plain;
mod plot;
mod spin;
mod timed;

use check::Seen;
use codes::{cells, filled, head, ratio_names, PEERS};
use compare::log::PROGRAM;
use compare::operations::WORKSPACE;
use counted::{Memory, Program, MOMENTS};
use std::path::Path;
use std::process::{exit, Command};
use timed::{Row, Spread, PASSES, RUNS};

/// The page's head, with a line for each peer and how often is measured.
fn opening() -> String {
    let peers: Vec<String> = PEERS.iter().map(|p| format!("- *{}*: {}.", p.name, p.about)).collect();
    let page = filled(include_str!("head.md")).replace("PEERS", &peers.join("\n"));
    page.replace("RUNS", &RUNS.to_string()).replace("PASSES", &PASSES.to_string()).replace("CELLS", &WORKSPACE.to_string())
}

/// How many of the runs keep to a target.
fn kept(figures: &[f64], most: f64) -> String {
    format!("in {} of {} runs", figures.iter().filter(|&&x| x <= most).count(), figures.len())
}

/// The figures for the largest log that the program takes, which is the last of its tables.
fn short(rows: &[Row], programs: &[Program], memory: &[Memory]) -> String {
    let (row, program) = (rows.iter().rfind(|r| r.events <= PROGRAM.events).unwrap(), programs.last().unwrap());
    let mut page = filled(include_str!("short.md")) + &head("| figure | target | met | measured |".into());
    for (i, p) in PEERS.iter().enumerate() {
        let medians: Vec<f64> = row.ratios[i].iter().map(|r| r.median).collect();
        let (target, met) = p.target.map_or(("-".into(), "-".into()), |most| (format!("at most {most}"), kept(&medians, most)));
        page += &format!("| time of Answer, proved / {} | {target} | {met} | {:.2} |\n", p.name, row.ratio(i));
    }
    let yes = |met: bool| if met { "yes" } else { "no" };
    let million = |n: u64| format!("{:.1}", n as f64 / 1e6);
    let peers: String = PEERS.iter().zip(&program.peers).map(|(p, &n)| format!("; {} {}", p.name, million(n))).collect();
    let (rounds, times) = (timed::growth_of_rounds(rows, row.stations), timed::growth_of_time(rows, row.stations, 0));
    let stack = memory.iter().map(|m| m.stack).max().unwrap();
    let heap = memory.iter().map(|m| m.heap).max().unwrap();
    page += &format!(
        "| instructions of the whole program | at most 50 million | {} | {} million{peers} |\n\
        | growth in events, exponent of time | at most that of rounds, {rounds:.2} | {} | {:.2} |\n\
        | heap | none | {} | {heap} bytes |\n| stack | under 262144 bytes | {} | {stack} bytes |\n",
        yes(program.proved <= 50_000_000),
        million(program.proved),
        kept(&times, rounds),
        Spread::over(times.iter().copied()),
        yes(heap == 0),
        yes(stack < 262144),
    );
    page += include_str!("runs.md");
    page += &head(format!("| run | {} | growth in events, exponent of time |", ratio_names()));
    for (run, time) in times.iter().enumerate() {
        page += &format!("| {} | {} | {time:.2} |\n", run + 1, cells(|i| format!("{:.2}", row.ratios[i][run])));
    }
    page
}

/// What is not there, each with what to run or install.
fn missing(folder: &str) -> Vec<String> {
    let mut all: Vec<String> = moment::MISSING.into_iter().map(String::from).collect();
    if !Path::new(MOMENTS).exists() {
        all.push(format!("{MOMENTS} is not there: run `tools/build.sh moments`, and this from the repository's root"));
    }
    for (tool, package) in [("valgrind", "valgrind"), ("nm", "binutils")] {
        if Command::new(tool).arg("--version").output().is_err() {
            all.push(format!("{tool} is not there: install Debian's package `{package}`"));
        }
    }
    if !Path::new(folder).is_dir() {
        all.push(format!("{folder} is no folder"));
    }
    all
}

/// Ends with one line on standard error.
fn end(code: i32, why: &str) -> ! {
    eprintln!("bench: {why}");
    exit(code)
}

fn refuse(why: &str) -> ! {
    end(2, why)
}

fn checked(logs: u64, seed: u64) -> Seen {
    check::run(logs, seed).unwrap_or_else(|why| end(1, &why))
}

fn main() {
    let args: Vec<String> = std::env::args().skip(1).collect();
    let words: Vec<&str> = args.iter().map(String::as_str).collect();
    let folder = match words[..] {
        ["run"] => return std::print!("{}", timed::run()),
        ["print", code] => return once::print(code),
        ["read", times] => return once::read(times),
        ["answer", code, times] => return once::answer(code, times),
        ["check", ref numbers @ ..] if numbers.len() < 3 => {
            let number = |i: usize, usual| numbers.get(i).map_or(usual, |n| n.parse().unwrap_or_else(|_| refuse("usage: bench check [LOGS] [SEED]")));
            let Seen { logs, large, messages, panels, silent } = checked(number(0, check::LOGS), number(1, check::SEED));
            let accepted = format!("{large} accepted of more than {} events, {messages} accepted with messages", PROGRAM.events);
            return println!("{logs} logs, {accepted}, {panels} accepted with header 11, {silent} accepted with a silent station, all equal");
        }
        [folder] => folder,
        [] => "docs",
        _ => refuse("usage: bench [FOLDER]"),
    };
    let missing = missing(folder);
    if !missing.is_empty() {
        refuse(&missing.join("; "));
    }
    checked(check::LOGS, check::SEED);
    let (rows, programs, memory) = (timed::grid(), counted::programs(), counted::memory());
    let page = [
        opening(),
        short(&rows, &programs, &memory),
        timed::section(&rows),
        counted::section(&programs),
        counted::calls_section(),
        counted::parts_section(),
        counted::memory_section(&memory),
        spin::section(),
    ];
    std::fs::write(format!("{folder}/PERFORMANCE.md"), page.concat()).unwrap();
    std::fs::write(format!("{folder}/performance.svg"), plot::svg(&rows)).unwrap();
}
