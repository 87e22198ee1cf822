//! What is lent to the operations, and what it held before a call.
use crate::draw::Draw;
use crate::guard::Guarded;
use crate::log::OPERATIONS;
use crate::operations::{BARS, LINE, WORKSPACE};

/// A buffer of which the last bytes are lent, beside what it held before. Behind them stands a page that must not be touched.
pub struct Lent {
    pub asked: usize,
    most: usize,
    pub size: usize,
    bytes: Guarded,
    before: Vec<u8>,
}

impl Lent {
    fn new(most: usize) -> Self {
        let bytes = Guarded::new(most + 64);
        Lent { asked: most, most, size: most, before: bytes.bytes().to_vec(), bytes }
    }

    /// A drawn pattern, and the most is asked for.
    fn fill(&mut self, d: &mut Draw) {
        let pattern = d.byte();
        self.before.iter_mut().enumerate().for_each(|(i, b)| *b = pattern.wrapping_add(i as u8));
        self.bytes.bytes_mut().copy_from_slice(&self.before);
        self.asked = self.most;
    }

    /// Lends as much as is asked for, or nothing, a little more or less, or the most that is ever asked for; or half or a little less than
    /// that, which of Read's and Write's outputs is what the program's limits come to.
    pub fn lend(&mut self, d: &mut Draw, exact: bool) {
        let (size, half) = (self.asked, self.asked / 2);
        self.size = if exact { size } else { d.pick(&[0, half.saturating_sub(1), half, size - 1, size, size, size + 1, self.most]) };
    }

    /// Where the lent part begins.
    fn start(&self) -> usize {
        self.before.len() - self.size
    }

    pub fn part(&mut self) -> &mut [u8] {
        let start = self.start();
        &mut self.bytes.bytes_mut()[start..]
    }

    pub fn part_before(&mut self) -> &mut [u8] {
        let start = self.start();
        &mut self.before[start..]
    }

    /// The lent part may hold anything.
    pub fn take_over(&mut self) {
        let start = self.start();
        self.before[start..].copy_from_slice(&self.bytes.bytes()[start..]);
    }

    pub fn same(&self, what: &str) {
        let (bytes, before) = (self.bytes.bytes(), &self.before[..]);
        if bytes != before {
            let i = (0..bytes.len()).find(|&i| bytes[i] != before[i]).unwrap_or(0);
            panic!("{what}: byte {i} is {}, not {}; lent were {} bytes, from byte {} on", bytes[i], before[i], self.size, self.start());
        }
    }
}

/// All that is lent: Read's, Write's and Answer's output, workspace and bar space. It is made once and filled anew for each log.
pub struct Buffers {
    pub list: Lent,
    pub lines: Lent,
    pub line: Lent,
    pub ws: Lent,
    pub bs: Lent,
}

impl Buffers {
    pub fn new() -> Self {
        let [list, lines, line, ws, bs] = [OPERATIONS.list, OPERATIONS.log, LINE, WORKSPACE, BARS].map(Lent::new);
        Buffers { list, lines, line, ws, bs }
    }

    pub fn fill(&mut self, d: &mut Draw) {
        let Buffers { list, lines, line, ws, bs } = self;
        [list, lines, line, ws, bs].into_iter().for_each(|lent| lent.fill(d));
    }
}
