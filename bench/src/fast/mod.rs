//! The same lines, made for speed: what a law of the sets tells is not worked out, and no memory is asked for but a structure's rows, which
//! are used again. Safe Rust, save for the processor's instructions on sixteen bytes (cut.rs).
mod basis;
mod cut;
mod read;
mod sets;

use basis::Finder;
use cut::{contained, Cut};
use compare::log::{OPERATIONS, PROGRAM};
use read::Log;

/// A frame as a line at the front of an output, its check byte added.
fn write_line(frame: impl Iterator<Item = u8>, out: &mut [u8]) -> usize {
    let (mut n, mut sum) = (0, 0u8);
    let mut digits = |b: u8| {
        out[n..n + 2].copy_from_slice(&[b >> 4, b & 15].map(|d| b"0123456789ABCDEF"[d as usize]));
        n += 2;
    };
    for b in frame {
        sum = sum.wrapping_sub(b);
        digits(b);
    }
    digits(sum);
    out[n] = 0x0A;
    n + 1
}

/// The maximal ones of some cuts, in order.
fn maximal(cuts: &[Cut]) -> Vec<Cut> {
    let mut all = Vec::with_capacity(16);
    for &c in cuts {
        if !all.iter().any(|&d| contained(c, d)) {
            all.retain(|&d| !contained(d, c));
            all.push(c);
        }
    }
    all.sort_unstable_by_key(|c| c.to_le_bytes());
    all
}

fn answer_question(log: &Log, finder: &mut Finder, q: usize, out: &mut [u8]) -> usize {
    let (start, greatest, rounds) = finder.answer(q);
    let cuts = maximal(&greatest);
    let counts = cuts.iter().flat_map(|c| c.to_le_bytes().into_iter().take(log.stations));
    write_line([0x40, start as u8, cuts.len() as u8].into_iter().chain(counts).chain(rounds.to_be_bytes()), out)
}

/// The line of a question of an accepted log, at the front of an output.
pub fn answer(data: &[u8], q: usize, out: &mut [u8]) -> usize {
    let log = read::read(OPERATIONS, data).unwrap_or_else(|_| panic!("an accepted log"));
    answer_question(&log, &mut Finder::new(&log), q, out)
}

/// What the program prints.
pub fn printed(data: &[u8], out: &mut [u8]) -> usize {
    match read::read(PROGRAM, data) {
        Err((number, at)) => write_line([0x50, number].into_iter().chain(at.to_be_bytes()), out),
        Ok(log) => {
            let mut finder = Finder::new(&log);
            (0..log.questions()).fold(0, |n, q| n + answer_question(&log, &mut finder, q, &mut out[n..]))
        }
    }
}
