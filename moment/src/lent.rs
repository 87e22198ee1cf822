//! The operations with everything lent by the caller, as the static library has them: no byte is copied and none allocated.
//!
//! Sizes, contents and the question's number are free: what does not fit is refused, and a refusal leaves every lent byte as it was. Else
//! output bytes past those written stay as they were, and workspace and bar space may hold anything.
use crate::{Forecast, Read, Refusal};

/// What to do where the library was not there to be linked; else none. Programs look here first: without the library a call ends the
/// program, with this text and exit code 2.
pub const MISSING: Option<&str> =
    if cfg!(linked) { None } else { Some("target/staticlib/libexports.a is not there: run `tools/build.sh exports`") };

/// The library's calls. Without the library each ends the program.
macro_rules! library {
    ($(fn $name:ident($($argument:ident: $of:ty),*) -> u64;)*) => {
        #[cfg(linked)]
        extern "C" {
            $(fn $name($($argument: $of),*) -> u64;)*
        }
        $(
            #[cfg(not(linked))]
            unsafe fn $name($(_: $of),*) -> u64 {
                eprintln!("{}", MISSING.unwrap_or_default());
                std::process::exit(2)
            }
        )*
    };
}

// What a caller has to keep is in docs/ASSUMPTIONS.md: each pointer is valid for the bytes of its length and not null, and what is written
// overlaps nothing else. Slices are lent like that, also empty ones, whose pointers are not null either; and the library keeps no pointer.
library! {
    fn moment_read(log: *const u8, log_len: usize, out: *mut u8, out_len: usize) -> u64;
    fn moment_write(list: *const u8, list_len: usize, out: *mut u8, out_len: usize) -> u64;
    fn moment_merge(log: *const u8, log_len: usize, second: *const u8, second_len: usize, out: *mut u8, out_len: usize) -> u64;
    fn moment_forecast(log: *const u8, log_len: usize, question: usize) -> u64;
    fn moment_answer(
        log: *const u8, log_len: usize, question: usize,
        ws: *mut u8, ws_len: usize, bs: *mut u8, bs_len: usize, out: *mut u8, out_len: usize
    ) -> u64;
    fn moment_holds(
        log: *const u8, log_len: usize, question: usize, cut: *const u8, cut_len: usize,
        ws: *mut u8, ws_len: usize, bs: *mut u8, bs_len: usize
    ) -> u64;
}

/// A refusal has its number in the highest five bits of the reply and its line in the lower half.
fn unpacked(reply: u64) -> Result<usize, Refusal> {
    match (reply >> 59) as u8 {
        0 => Ok(reply as usize),
        number => Err(Refusal { number, line: reply as u32 }),
    }
}

/// Read: the frame list goes to the output, which has [`LIST`](crate::LIST) bytes or more. The first three values are a byte each.
pub fn read(log: &[u8], out: &mut [u8]) -> Result<Read, Refusal> {
    // SAFETY: pointers and lengths are those of slices, and `out` is borrowed alone.
    let reply = unsafe { moment_read(log.as_ptr(), log.len(), out.as_mut_ptr(), out.len()) };
    unpacked(reply).map(|v| Read { stations: v % 256, events: (v >> 8) % 256, questions: (v >> 16) % 256, list: v >> 24 })
}

/// Write: the log goes to the output, which has [`LOG`](crate::LOG) bytes or more; its length.
pub fn write(list: &[u8], out: &mut [u8]) -> Result<usize, Refusal> {
    // SAFETY: as in `read`.
    unpacked(unsafe { moment_write(list.as_ptr(), list.len(), out.as_mut_ptr(), out.len()) })
}

/// Merge: the log that two logs make goes to the output, which has [`LOG`](crate::LOG) bytes or more; its length. Which of the two a
/// refusal is of is told by [`read`]: the first's if it refuses that, else the second's, or with 17, 18 and 12 neither's.
pub fn merge(log: &[u8], second: &[u8], out: &mut [u8]) -> Result<usize, Refusal> {
    // SAFETY: as in `read`; the two logs are only read, so they may overlap.
    unpacked(unsafe { moment_merge(log.as_ptr(), log.len(), second.as_ptr(), second.len(), out.as_mut_ptr(), out.len()) })
}

/// Forecast. Width and bars take five bits each, held six, cells 17 and the ceiling 24.
pub fn forecast(log: &[u8], question: usize) -> Result<Forecast, Refusal> {
    // SAFETY: as in `read`; nothing is written.
    let reply = unsafe { moment_forecast(log.as_ptr(), log.len(), question) };
    unpacked(reply).map(|v| Forecast {
        width: v % 32,
        bars: (v >> 5) % 32,
        held: (v >> 10) % 64,
        cells: (v >> 16) % (1 << 17),
        ceiling: v >> 33,
    })
}

/// Answer: the answer line goes to the output, which has [`LINE`](crate::LINE) bytes or more; its length, 0A included. The workspace has
/// the cells forecast of the question or more, the bar space [`BARS`](crate::BARS) bytes or more.
pub fn answer(log: &[u8], question: usize, workspace: &mut [u8], bars: &mut [u8], out: &mut [u8]) -> Result<usize, Refusal> {
    let [(ws, ws_len), (bs, bs_len), (to, to_len)] = [workspace, bars, out].map(|s| (s.as_mut_ptr(), s.len()));
    // SAFETY: as in `read`; the three that are written are borrowed apart, and not used again before the call returns.
    unpacked(unsafe { moment_answer(log.as_ptr(), log.len(), question, ws, ws_len, bs, bs_len, to, to_len) })
}

/// Holds: is the question true at the cut, which has a byte for each station? Workspace and bar space as in [`answer`].
pub fn holds(log: &[u8], question: usize, cut: &[u8], workspace: &mut [u8], bars: &mut [u8]) -> Result<bool, Refusal> {
    let [(ws, ws_len), (bs, bs_len)] = [workspace, bars].map(|s| (s.as_mut_ptr(), s.len()));
    // SAFETY: as in `answer`.
    let reply = unsafe { moment_holds(log.as_ptr(), log.len(), question, cut.as_ptr(), cut.len(), ws, ws_len, bs, bs_len) };
    match unpacked(reply)? {
        0 => Ok(false),
        1 => Ok(true),
        _ => Err(Refusal::UNPROVED),
    }
}
