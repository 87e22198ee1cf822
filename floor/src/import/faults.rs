//! What is wrong with a file, each with its line.
use crate::failure::Failure;

/// The most faults that are kept. Those beyond are counted.
const KEPT: usize = 1000;

/// How many are told beside that count.
const TOLD: usize = 9;

pub struct Faults<'f> {
    file: &'f str,
    list: Vec<(usize, String)>,
    beyond: usize,
}

impl<'f> Faults<'f> {
    pub fn new(file: &'f str) -> Self {
        Faults { file, list: vec![], beyond: 0 }
    }

    pub fn at(&mut self, line: usize, what: impl FnOnce() -> String) {
        if self.list.len() < KEPT {
            self.list.push((line, format!("{}:{line}: {}", self.file, what())));
        } else {
            self.beyond += 1;
        }
    }

    pub fn none(&self) -> bool {
        self.list.is_empty()
    }

    /// Goes on where there are none; else they are told in the order of the lines.
    pub fn told(&mut self) -> Result<(), Failure> {
        if self.none() {
            return Ok(());
        }
        self.list.sort_by_key(|(line, _)| *line);
        let mut told: Vec<String> = self.list.drain(..).map(|(_, what)| what).collect();
        if self.beyond > 0 {
            let more = told.len() - TOLD + self.beyond;
            told.truncate(TOLD);
            told.push(format!("{}: and {more} more", self.file));
        }
        Err(Failure::Words(told))
    }
}
