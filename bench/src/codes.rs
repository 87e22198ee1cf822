//! The codes beside which the proved one is measured: one more is one more entry here.
use crate::{fast, plain};
use compare::log::{OPERATIONS, PROGRAM};
use compare::operations::{self, BARS, WORKSPACE};

pub struct Peer {
    pub name: &'static str,
    pub about: &'static str,
    pub colour: &'static str,
    /// The product's target, if it has one: the most that the proved code is to take of this code's time.
    pub target: Option<f64>,
    /// One Answer: the line of a question of an accepted log, at the front of the output; its length.
    pub answer: fn(&[u8], usize, &mut [u8]) -> usize,
    /// The whole program: the lines of all questions, likewise.
    pub printed: fn(&[u8], &mut [u8]) -> usize,
}

pub const PEERS: &[Peer] = &[
    Peer {
        name: "independent",
        about: "the Rust code of tests/compare, written from document 01: cuts of fixed size joined in place, one vector of rows a structure, \
            no allocation in a round",
        colour: "#06c",
        target: Some(1.0),
        answer: |data, q, out| operations::answer(data, q, WORKSPACE, BARS, out).unwrap(),
        printed: |data, out| operations::put(&operations::printed(data), out),
    },
    Peer {
        name: "plain",
        about: "Rust code of bench/ for the same rule: cuts handed on by value, an `Option` for each row",
        colour: "#c60",
        target: Some(0.5),
        answer: |data, q, out| operations::put(&plain::answer(data, q), out),
        printed: |data, out| operations::put(&plain::printed(data), out),
    },
    Peer {
        name: "fast",
        about: "Rust code of bench/ made for speed, with the same lines: eight counts joined and sixteen digits decoded at once, and in a pair \
            with a range the rounds worked out once for each count of its station and looked up by every start",
        colour: "#909",
        target: Some(1.3),
        answer: fast::answer,
        printed: fast::printed,
    },
];

/// A cell for each, between the bars of a table.
pub fn cells(of: impl Fn(usize) -> String) -> String {
    (0..PEERS.len()).map(of).collect::<Vec<String>>().join(" | ")
}

pub fn names() -> String {
    cells(|i| PEERS[i].name.into())
}

pub fn ratio_names() -> String {
    cells(|i| format!("proved / {}", PEERS[i].name))
}

/// A text of the page, with the most events that the program and the operations take.
pub fn filled(text: &str) -> String {
    text.replace("PROGRAM", &PROGRAM.events.to_string()).replace("OPERATIONS", &OPERATIONS.events.to_string())
}

/// The head of a table, with the line below it.
pub fn head(line: String) -> String {
    format!("{line}\n|{}\n", "---|".repeat(line.matches('|').count() - 1))
}
