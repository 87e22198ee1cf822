//! Times of one Answer, by stations and events.
use crate::arena::{lent, touch};
use crate::codes::{cells, filled, head, names, ratio_names, PEERS};
use compare::draw::Draw;
use compare::formula::Tokens;
use compare::log::{Log, OPERATIONS, PROGRAM};
use compare::made::{self, Shape};
use compare::operations::{BARS, LINE, WORKSPACE};
use compare::{listing, messages, panels};
use moment::lent as proved;
use std::env::current_exe;
use std::fmt::{Display, Formatter, Result, Write};
use std::hint::black_box;
use std::process::{Command, Stdio};

const STATIONS: [usize; 4] = [2, 4, 6, 8];
const EVENTS: [usize; 5] = [8, 16, 32, 64, PROGRAM.events];
/// Those with a log of the operations' most events, which is past the program's.
const LARGE: [usize; 2] = [4, 8];
const QUESTIONS: usize = 16;
/// Whole runs, each in a process of its own; how often one goes over all logs, and how often it lists.
pub const RUNS: usize = 5;
pub const PASSES: usize = 25;
const LISTINGS: usize = 5;
const LISTED: usize = 20_000;
/// What a run tells of each log: a line for each code and one for the listing.
const LINES: usize = PEERS.len() + 2;

/// A median, and the figures between which the others lie.
#[derive(Clone, Copy)]
pub struct Spread {
    pub low: f64,
    pub median: f64,
    pub high: f64,
}

impl Spread {
    /// The middle of an odd number of figures, and those as many places before and after it.
    fn about(figures: impl Iterator<Item = f64>, places: impl Fn(usize) -> usize) -> Self {
        let mut all: Vec<f64> = figures.collect();
        all.sort_by(f64::total_cmp);
        let (middle, away) = (all.len() / 2, places(all.len()));
        Spread { low: all[middle - away], median: all[middle], high: all[middle + away] }
    }

    /// The quartiles within one run.
    fn within(figures: impl Iterator<Item = f64>) -> Self {
        Self::about(figures, |n| n / 4)
    }

    /// The least and the greatest of all runs.
    pub fn over(figures: impl Iterator<Item = f64>) -> Self {
        Self::about(figures, |n| n / 2)
    }

    fn of_medians(runs: &[Spread]) -> Self {
        Self::over(runs.iter().map(|r| r.median))
    }
}

impl Display for Spread {
    fn fmt(&self, f: &mut Formatter) -> Result {
        let p = f.precision().unwrap_or(1);
        write!(f, "{:.p$} ({:.p$} to {:.p$})", self.median, self.low, self.high)
    }
}

/// The figures of one log; each list of spreads has one for each run.
pub struct Row {
    pub stations: usize,
    pub events: usize,
    rounds: f64,
    /// The proved code's, then each peer's.
    times: Vec<Vec<Spread>>,
    /// The proved code's time over each peer's, taken next to it.
    pub ratios: Vec<Vec<Spread>>,
    /// None where there are too many cuts.
    listing: Vec<Spread>,
}

impl Row {
    pub fn time(&self, code: usize) -> Spread {
        Spread::of_medians(&self.times[code])
    }

    pub fn ratio(&self, peer: usize) -> Spread {
        Spread::of_medians(&self.ratios[peer])
    }

    pub fn listing(&self) -> Option<Spread> {
        (!self.listing.is_empty()).then(|| Spread::of_medians(&self.listing))
    }
}

/// Events, one in three of which has seen another station. Fewer are the beginning of more.
fn wide_frames(shape: Shape) -> Vec<Vec<u8>> {
    let d = &mut Draw(0);
    let mut fs = vec![made::header(d, shape)];
    fs.extend(made::events(d, shape, 3));
    fs
}

/// These with questions of width 16.
fn asked_frames(stations: usize, events: usize, questions: usize) -> Vec<Vec<u8>> {
    let asked = &mut Draw(1);
    let shape = Shape { stations, events, questions: 0, ranges: 0, step: 1, zero: 0 };
    let mut fs = wide_frames(shape);
    fs.extend((0..questions).map(|_| [vec![0x30], made::product(asked, shape, &[2, 2, 2, 2])].concat()));
    fs
}

/// A log of these.
pub fn wide_log(stations: usize, events: usize, questions: usize) -> Vec<u8> {
    made::lines(&asked_frames(stations, events, questions))
}

/// The same with a header of kind 11, and a token 08 in place of every second token 01. Panels are 0 to 3, as values are.
pub fn panel_log(stations: usize, events: usize, questions: usize) -> Vec<u8> {
    let (d, mut fs, mut second) = (&mut Draw(3), asked_frames(stations, events, questions), true);
    panels::put(&mut fs, |_, value| [value, made::word(d.below(4))]);
    panels::ask(&mut fs, |_| {
        second = !second;
        second
    });
    made::lines(&fs)
}

/// A log with messages of four pairs, and questions of which every second atom is a token 07 of one of these.
pub fn message_log(stations: usize, events: usize, messages: usize, questions: usize) -> Vec<u8> {
    let (d, asked) = (&mut Draw(2), &mut Draw(1));
    let shape = Shape { stations, events, questions: 0, ranges: 0, step: 1, zero: 0 };
    let mut fs = wide_frames(shape);
    let (clocks, pairs) = (messages::clocks(&fs, stations), [0; 4].map(|_| messages::pair(d, stations)));
    let sent = (0..messages).map(|k| messages::received(d, &clocks, pairs[k % 4], 4).expect("an event that has seen the sender"));
    fs.extend(sent.collect::<Vec<_>>());
    for _ in 0..questions {
        let mut q = vec![0x30, 3, 3, 3];
        for [i, j] in pairs {
            q.extend([vec![4], made::range(asked, shape), vec![7, i as u8, j as u8]].concat());
        }
        fs.push(q);
    }
    made::lines(&fs)
}

/// The rounds that an answer line tells.
pub fn rounds(line: &[u8]) -> u64 {
    let digits = &line[line.len() - 11..line.len() - 3];
    u64::from_str_radix(std::str::from_utf8(digits).unwrap(), 16).unwrap()
}

/// The processor time of this thread so far, in microseconds.
fn clock() -> f64 {
    extern "C" {
        fn clock_gettime(clock: i32, time: *mut [i64; 2]) -> i32;
    }
    const THREAD: i32 = 3;
    let mut time = [0; 2];
    assert_eq!(unsafe { clock_gettime(THREAD, &mut time) }, 0);
    time[0] as f64 * 1e6 + time[1] as f64 / 1e3
}

/// Microseconds of processor time that some work takes.
pub fn micros(work: impl FnOnce()) -> f64 {
    let began = clock();
    work();
    clock() - began
}

/// The maximal cuts and the start, by a listing of every cut.
fn list(data: &[u8]) -> (usize, bool) {
    let log = Log::read(OPERATIONS, data).unwrap();
    let cuts = listing::consistent(&log);
    let truth = listing::truth(&log, &cuts, &mut Tokens(&log.questions[0]));
    (listing::maximal(&cuts, &truth).len(), truth[0])
}

struct Case {
    stations: usize,
    events: usize,
    data: Vec<u8>,
    listed: bool,
}

fn cases() -> Vec<Case> {
    let case = |stations, events| {
        let data = wide_log(stations, events, QUESTIONS);
        let log = Log::read(OPERATIONS, &data).unwrap();
        let listed = listing::count(&log) <= 100 * LISTED && listing::consistent(&log).len() <= LISTED;
        Case { stations, events, data, listed }
    };
    let large = |stations: &usize| LARGE.contains(stations).then_some(OPERATIONS.events);
    STATIONS.iter().flat_map(|s| EVENTS.into_iter().chain(large(s)).map(|events| case(*s, events))).collect()
}

/// The rounds of a question on average; the peers write the proved code's lines.
fn rounds_of(data: &[u8]) -> f64 {
    let (mut ws, mut bs, mut out, mut sum) = (vec![0; WORKSPACE], vec![0; BARS], vec![0; LINE], 0);
    for q in 0..QUESTIONS {
        let n = proved::answer(data, q, &mut ws, &mut bs, &mut out).unwrap();
        sum += rounds(&out[..n]);
        for p in PEERS {
            let line = &mut [0; LINE];
            let m = lent(|| (p.answer)(data, q, line));
            assert_eq!(out[..n], line[..m], "the line of {}", p.name);
        }
    }
    sum as f64 / QUESTIONS as f64
}

/// Microseconds of one of 16 Answers, after one that is not counted.
fn time(mut answer: impl FnMut(usize) -> usize) -> f64 {
    black_box(answer(0));
    micros(|| (0..QUESTIONS).for_each(|q| _ = black_box(answer(q)))) / QUESTIONS as f64
}

/// One run: for each log a line of the proved code's times, a line for each peer and one for the listing.
pub fn run() -> String {
    let (cases, mut ws, mut bs, mut out) = (cases(), vec![1; WORKSPACE], vec![1; BARS], vec![1; LINE]);
    let mut times = vec![vec![vec![]; LINES]; cases.len()];
    touch();
    for pass in 0..PASSES {
        for (Case { data, listed, .. }, times) in cases.iter().zip(&mut times) {
            times[0].push(time(|q| proved::answer(data, q, &mut ws, &mut bs, &mut out).unwrap()));
            for (p, times) in PEERS.iter().zip(&mut times[1..]) {
                times.push(time(|q| lent(|| (p.answer)(data, q, &mut out))));
            }
            if *listed && pass < LISTINGS {
                black_box(list(data));
                times[LINES - 1].push(micros(|| _ = black_box(list(data))));
            }
        }
    }
    let line = |times: &Vec<f64>| times.iter().map(f64::to_string).collect::<Vec<_>>().join(" ") + "\n";
    times.iter().flatten().map(line).collect()
}

/// The lines of a run in a process of its own.
fn apart() -> Vec<Vec<f64>> {
    let out = Command::new(current_exe().unwrap()).arg("run").stderr(Stdio::inherit()).output().unwrap();
    assert!(out.status.success(), "a run");
    let lines = String::from_utf8(out.stdout).unwrap();
    lines.lines().map(|l| l.split_whitespace().map(|t| t.parse().unwrap()).collect()).collect()
}

pub fn grid() -> Vec<Row> {
    let runs: Vec<Vec<Vec<f64>>> = (0..RUNS).map(|_| apart()).collect();
    let row = |(k, Case { stations, events, data, listed }): (usize, Case)| {
        let lines = |code: usize| runs.iter().map(move |run| &run[k * LINES + code]);
        let times = |code: usize| lines(code).map(|t| Spread::within(t.iter().copied())).collect();
        let ratios = |code: usize| lines(0).zip(lines(code)).map(|(t, u)| Spread::within(t.iter().zip(u).map(|(t, u)| t / u))).collect();
        Row {
            stations,
            events,
            rounds: rounds_of(&data),
            times: (0..=PEERS.len()).map(times).collect(),
            ratios: (1..=PEERS.len()).map(ratios).collect(),
            listing: if listed { times(LINES - 1) } else { vec![] },
        }
    };
    cases().into_iter().enumerate().map(row).collect()
}

/// The slope of log y over log x, by least squares.
fn slope(points: &[(f64, f64)]) -> f64 {
    let logs: Vec<(f64, f64)> = points.iter().map(|(x, y)| (x.ln(), y.ln())).collect();
    let n = logs.len() as f64;
    let (mx, my) = (logs.iter().map(|p| p.0).sum::<f64>() / n, logs.iter().map(|p| p.1).sum::<f64>() / n);
    logs.iter().map(|p| (p.0 - mx) * (p.1 - my)).sum::<f64>() / logs.iter().map(|p| (p.0 - mx).powi(2)).sum::<f64>()
}

/// The exponent of a figure in events, as far as the program goes.
fn growth(rows: &[Row], stations: usize, figure: impl Fn(&Row) -> f64) -> f64 {
    let some = rows.iter().filter(|r| r.stations == stations && (16..=PROGRAM.events).contains(&r.events));
    slope(&some.map(|r| (r.events as f64, figure(r))).collect::<Vec<_>>())
}

pub fn growth_of_rounds(rows: &[Row], stations: usize) -> f64 {
    growth(rows, stations, |r| r.rounds)
}

/// One for each run.
pub fn growth_of_time(rows: &[Row], stations: usize, code: usize) -> Vec<f64> {
    (0..RUNS).map(|run| growth(rows, stations, |r| r.times[code][run].median)).collect()
}

pub fn section(rows: &[Row]) -> String {
    let mut page = filled(include_str!("timed.md"));
    page += &head(format!("| stations | events | rounds | proved | {} | listing | {} |", names(), ratio_names()));
    for r in rows {
        let Row { stations, events, rounds, .. } = r;
        let (peers, ratios) = (cells(|i| format!("{:.1}", r.time(i + 1))), cells(|i| format!("{:.2}", r.ratio(i))));
        let listing = r.listing().map_or("-".into(), |t| format!("{t:.0}"));
        writeln!(page, "| {stations} | {events} | {rounds:.0} | {:.1} | {peers} | {listing} | {ratios} |", r.time(0)).unwrap();
    }
    page += include_str!("growth.md");
    page += &head(format!("| stations | rounds | proved | {} |", names()));
    for stations in STATIONS {
        let time = |code| format!("{:.2}", Spread::over(growth_of_time(rows, stations, code).into_iter()));
        writeln!(page, "| {stations} | {:.2} | {} | {} |", growth_of_rounds(rows, stations), time(0), cells(|i| time(i + 1))).unwrap();
    }
    page
}
