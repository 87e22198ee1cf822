//! Instructions of the whole program under callgrind, and its memory under massif.
use crate::codes::{cells, filled, head, names, PEERS};
use crate::timed::{message_log, panel_log, rounds, wide_log};
use compare::log::{line, Limits, OPERATIONS, PROGRAM, QUESTIONS};
use std::env::{current_exe, vars_os};
use std::fmt::Write;
use std::fs::{create_dir_all, write, File};
use std::process::Command;

pub const MOMENTS: &str = "target/bin/moments";
const FOLDER: &str = "target/bench";

/// A log in a file under the folder.
fn file(name: &str, log: &[u8]) -> String {
    let path = format!("{FOLDER}/{name}.log");
    create_dir_all(FOLDER).and_then(|_| write(&path, log)).unwrap();
    path
}

/// How large the log of a row of a table is, and what it has: messages, or a header of kind 11, or neither.
#[derive(Clone, Copy)]
struct Size {
    stations: usize,
    events: usize,
    messages: usize,
    header: u8,
}

impl Size {
    fn of(stations: usize, events: usize) -> Self {
        Size { stations, events, messages: 0, header: 0x10 }
    }

    fn with_messages(self, messages: usize) -> Self {
        Size { messages, ..self }
    }

    fn with_panels(self) -> Self {
        Size { header: 0x11, ..self }
    }

    /// The name of the log, and the log with so many questions.
    fn log(self, questions: usize) -> (String, Vec<u8>) {
        let Size { stations, events, messages, header } = self;
        let name = format!("{stations}x{events}");
        match (messages, header) {
            (0, 0x10) => (name, wide_log(stations, events, questions)),
            (0, _) => (name + "-panels", panel_log(stations, events, questions)),
            _ => (name + "-messages", message_log(stations, events, messages, questions)),
        }
    }
}

/// What a program prints on a log, and what valgrind's tool tells of it. The environment is bare, as a process's start depends on it.
fn valgrind(words: &[&str], log: &str) -> (String, String) {
    let mut command = Command::new("valgrind");
    command.args(words).env_clear().envs(vars_os().filter(|(name, _)| name == "PATH"));
    let out = command.stdin(File::open(log).unwrap()).output().expect("valgrind");
    assert!(out.status.success(), "{words:?} on {log}");
    (String::from_utf8(out.stdout).unwrap(), String::from_utf8_lossy(&out.stderr).into_owned())
}

/// What a program prints on a log, and its instructions.
fn instructions(program: &[&str], log: &str) -> (String, u64) {
    let (printed, told) = valgrind(&[&["--tool=callgrind", "--callgrind-out-file=/dev/null"], program].concat(), log);
    let line = told.lines().find(|l| l.contains("Collected")).unwrap();
    (printed, line.rsplit(' ').next().unwrap().parse().unwrap())
}

/// What ten calls more of Read take.
fn ten_reads(log: &str) -> u64 {
    let bench = current_exe().unwrap();
    let reads = |times: &str| instructions(&[bench.to_str().unwrap(), "read", times], log).1;
    reads("11") - reads("1")
}

/// Instructions of the programs on a log with 16 questions, what the proved one takes a log byte and a round, and Read a log byte.
pub struct Program {
    size: Size,
    bytes: usize,
    rounds: u64,
    pub proved: u64,
    pub peers: Vec<u64>,
    per_byte: f64,
    per_round: f64,
    read: f64,
}

fn program(size: Size) -> Program {
    let ((name, data), (_, bare)) = (size.log(16), size.log(0));
    let (asked, unasked, empty) = (file(&name, &data), file(&(name + "-bare"), &bare), file("empty", b""));
    let bench = current_exe().unwrap();
    let (printed, proved) = instructions(&[MOMENTS], &asked);
    let peer = |name: &str| {
        let (line, count) = instructions(&[bench.to_str().unwrap(), "print", name], &asked);
        assert!(line == printed, "what {name} prints");
        count
    };
    let peers = PEERS.iter().map(|p| peer(p.name)).collect();
    let (reading, beginning) = (instructions(&[MOMENTS], &unasked).1, instructions(&[MOMENTS], &empty).1);
    let rounds = printed.split_inclusive('\n').map(|l| rounds(l.as_bytes())).sum();
    Program {
        size,
        bytes: data.len(),
        rounds,
        proved,
        peers,
        per_byte: (reading - beginning) as f64 / bare.len() as f64,
        per_round: (proved - reading) as f64 / rounds as f64,
        read: ten_reads(&asked) as f64 / (10 * data.len()) as f64,
    }
}

/// For 2 to 8 stations, for fewer events, with messages and with panels; the last has the most events that the program takes.
pub fn programs() -> Vec<Program> {
    let Limits { events: most, messages: all, .. } = PROGRAM;
    let (few, largest) = ([2, 3, 4, 6].map(|stations| Size::of(stations, most)), Size::of(8, most));
    let eight = [Size::of(8, 32), Size::of(8, 64), largest.with_messages(all), largest.with_panels(), largest];
    few.into_iter().chain(eight).map(program).collect()
}

pub fn section(programs: &[Program]) -> String {
    let mut page = String::from(include_str!("counted.md"));
    let costs = "proved, a log byte | proved, a round | Read, a log byte";
    page += &head(format!("| stations | events | messages | header | log bytes | rounds | proved | {} | {costs} |", names()));
    for p in programs {
        let Program { size: Size { stations, events, messages, header }, bytes, rounds, proved, peers, per_byte, per_round, read } = p;
        let log = format!("{stations} | {events} | {messages} | {header:X} | {bytes}");
        let (peers, costs) = (cells(|i| peers[i].to_string()), format!("{per_byte:.0} | {per_round:.0} | {read:.2}"));
        writeln!(page, "| {log} | {rounds} | {proved} | {peers} | {costs} |").unwrap();
    }
    page
}

/// Instructions of Read, and of Answer by each code, on logs of the most events that the program takes and on some that it does not.
pub fn calls_section() -> String {
    let (few, many, all, mut page) = (PROGRAM.events, OPERATIONS.events, OPERATIONS.messages, filled(include_str!("calls.md")));
    page += &head(format!("| stations | events | messages | log bytes | rounds | Read | Read, a log byte | Answer, proved | {} |", names()));
    for (stations, events, messages) in [(8, few, 0), (8, few, all), (4, many, 0), (8, many, 0), (8, many, all)] {
        let ((name, data), bench) = (Size::of(stations, events).with_messages(messages).log(QUESTIONS), current_exe().unwrap());
        let log = file(&name, &data);
        let (bytes, read) = (data.len(), ten_reads(&log));
        let process = |code: &str, times: &str| instructions(&[bench.to_str().unwrap(), "answer", code, times], &log);
        let (_, beginning) = process("proved", "0");
        let answers = |code: &str| {
            let (lines, count) = process(code, "1");
            (lines, (count - beginning) / QUESTIONS as u64)
        };
        let (lines, proved) = answers("proved");
        let peers = cells(|i| {
            let (theirs, count) = answers(PEERS[i].name);
            assert!(theirs == lines, "what {} answers", PEERS[i].name);
            count.to_string()
        });
        let rounds = lines.split_inclusive('\n').map(|l| rounds(l.as_bytes())).sum::<u64>() as f64 / QUESTIONS as f64;
        let per_byte = read as f64 / (10 * bytes) as f64;
        let log = format!("{stations} | {events} | {messages} | {bytes}");
        writeln!(page, "| {log} | {rounds:.0} | {} | {per_byte:.2} | {proved} | {peers} |", read / 10).unwrap();
    }
    page
}

/// A program's instructions by function, the most first; those under a hundredth of all are one row.
fn parts(program: &[&str], log: &str) -> Vec<(String, u64)> {
    let out = format!("{FOLDER}/callgrind.out");
    valgrind(&[&["--tool=callgrind", &format!("--callgrind-out-file={out}")], program].concat(), log);
    let told = Command::new("callgrind_annotate").args(["--auto=no", "--threshold=100", &out]).output().expect("callgrind_annotate");
    let (mut all, mut total) = (Vec::<(String, u64)>::new(), 0);
    for line in String::from_utf8_lossy(&told.stdout).lines() {
        // instructions (share) file:function [program]
        let Some((count, place)) = line.split_once(" (") else { continue };
        let Ok(count) = count.trim().replace(',', "").parse::<u64>() else { continue };
        let place = place.split_once(')').unwrap().1.trim();
        if place == "PROGRAM TOTALS" {
            total = count;
            continue;
        }
        let name = place.split(" [").next().unwrap().split_once(':').unwrap().1.to_string();
        match all.iter_mut().find(|(n, _)| *n == name) {
            Some((_, sum)) => *sum += count,
            None => all.push((name, count)),
        }
    }
    let (mut large, small): (Vec<_>, Vec<_>) = all.into_iter().partition(|&(_, n)| total <= n * 100);
    assert!(large.iter().chain(&small).map(|&(_, n)| n).sum::<u64>() == total, "all instructions of {program:?} are some function's");
    large.sort_by_key(|&(_, n)| std::cmp::Reverse(n));
    large.push(("all else".into(), small.iter().map(|&(_, n)| n).sum()));
    large
}

/// Where the instructions go on the largest log, in the proved program and in the fastest of the others.
pub fn parts_section() -> String {
    let mut page = String::from(include_str!("parts.md"));
    let (log, bench) = (file("8x127", &wide_log(8, 127, 16)), current_exe().unwrap());
    for (name, program) in [("proved", vec![MOMENTS]), ("fast", vec![bench.to_str().unwrap(), "print", "fast"])] {
        page += &head(format!("\n| {name} | instructions |"));
        parts(&program, &log).iter().for_each(|(function, n)| writeln!(page, "| `{function}` | {n} |").unwrap());
    }
    page
}

/// The largest log with questions of 32 tokens: 31 of one operand over a range, 29 over an "and", and a chain of "and" or "or" over 11.
fn deep_log() -> Vec<u8> {
    let range = |s: u8| vec![1, s, 0, 1, 0, 2];
    let under = |tokens: &[u8], n: usize| [vec![0x30], tokens.iter().copied().cycle().take(n).collect()].concat();
    let chain = |token: u8| (0..10).flat_map(|k| [vec![token], range(k % 8)].concat()).collect::<Vec<u8>>();
    let mut questions = vec![];
    for tokens in [&[2][..], &[5], &[6], &[6, 2], &[2, 5]] {
        questions.push([under(tokens, 31), range(0)].concat());
        questions.push([under(tokens, 29), vec![3], range(0), range(1)].concat());
    }
    for (token, last) in [(3, 6), (4, 2)] {
        questions.push([vec![0x30], chain(token), vec![last; 11], range(7)].concat());
    }
    [wide_log(8, 127, 0), questions.iter().flat_map(|q| line(q)).collect()].concat()
}

/// A question of 98 signs, which is refused after all of it has been measured: no question of any log nests deeper.
fn refused_log() -> Vec<u8> {
    [line(&[0x10, 1, 0, 0]), line(&[vec![0x30], vec![2; 98]].concat())].concat()
}

/// The most heap and stack, in bytes, that the program has on a log.
pub struct Memory {
    log: String,
    pub heap: u64,
    pub stack: u64,
}

fn memory_on(log: String) -> Memory {
    let out = format!("{FOLDER}/massif.out");
    let (printed, _) = valgrind(&["--tool=massif", "--stacks=yes", "--peak-inaccuracy=0.0", &format!("--massif-out-file={out}"), MOMENTS], &log);
    let limited = Command::new("sh").args(["-c", &format!("ulimit -s 256; {MOMENTS} < {log}")]).output().unwrap();
    assert!(!printed.is_empty() && printed.as_bytes() == limited.stdout, "what is printed for {log}, also with 256 KiB of stack");
    let told = std::fs::read_to_string(out).unwrap();
    let most = |key: &str| told.lines().filter_map(|l| l.strip_prefix(key)?.parse().ok()).max().unwrap();
    Memory { heap: most("mem_heap_B="), stack: most("mem_stacks_B="), log }
}

pub fn memory() -> [Memory; 4] {
    let [(plain, few), (sent, many)] = [0, PROGRAM.messages].map(|messages| Size::of(8, 127).with_messages(messages).log(16));
    [file(&plain, &few), file(&sent, &many), file("deep", &deep_log()), file("refused", &refused_log())].map(memory_on)
}

pub fn memory_section(memory: &[Memory]) -> String {
    let mut page = String::from(include_str!("memory.md"));
    memory.iter().for_each(|Memory { log, heap, stack }| writeln!(page, "| {log} | {heap} | {stack} |").unwrap());
    let out = Command::new("nm").args(["-D", "--undefined-only", MOMENTS]).output().expect("nm");
    let names = String::from_utf8_lossy(&out.stdout).into_owned();
    let names: Vec<String> = names.lines().filter_map(|l| Some(format!("`{}`", l.trim().strip_prefix("U ")?.split('@').next()?))).collect();
    writeln!(page, "\nWhat the program takes from the C library (`nm -D --undefined-only {MOMENTS}`): {}. None of these allocates.", names.join(", ")).unwrap();
    page
}
