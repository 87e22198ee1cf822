//! Cuts as numbers of eight bytes: the count of station j is byte j, the lowest first. The two functions on eight or sixteen bytes at once use
//! instructions that every x86-64 processor has, and plain Rust elsewhere.

pub type Cut = u64;

/// No cut. It has more than any count at each station, so that a join with it is none again.
pub const NONE: Cut = Cut::MAX;

/// The larger of each two counts.
#[cfg(target_arch = "x86_64")]
pub fn join(c: Cut, d: Cut) -> Cut {
    use std::arch::x86_64::{_mm_cvtsi128_si64, _mm_cvtsi64_si128, _mm_max_epu8};
    unsafe { _mm_cvtsi128_si64(_mm_max_epu8(_mm_cvtsi64_si128(c as i64), _mm_cvtsi64_si128(d as i64))) as Cut }
}

#[cfg(not(target_arch = "x86_64"))]
pub fn join(c: Cut, d: Cut) -> Cut {
    let (c, d) = (c.to_le_bytes(), d.to_le_bytes());
    Cut::from_le_bytes(std::array::from_fn(|j| c[j].max(d[j])))
}

pub fn contained(c: Cut, d: Cut) -> bool {
    join(c, d) == d
}

/// The count of a station, 255 in none.
pub fn count(c: Cut, station: usize) -> u8 {
    (c >> (8 * (station & 7))) as u8
}

/// Of sixteen characters, how many digits there are at the front, and the bytes of these.
#[cfg(target_arch = "x86_64")]
pub fn decoded(chars: [u8; 16]) -> (u64, usize) {
    use std::arch::x86_64::*;
    unsafe {
        let all = |b: u8| _mm_set1_epi8(b as i8);
        let chars = _mm_loadu_si128(chars.as_ptr().cast());
        let (number, letter) = (_mm_sub_epi8(chars, all(b'0')), _mm_sub_epi8(chars, all(b'A')));
        let is_number = _mm_cmpeq_epi8(_mm_min_epu8(number, all(9)), number);
        let is_letter = _mm_cmpeq_epi8(_mm_min_epu8(letter, all(5)), letter);
        let digits = _mm_sub_epi8(number, _mm_and_si128(is_letter, all(7)));
        let pairs = _mm_and_si128(_mm_or_si128(_mm_slli_epi16(digits, 4), _mm_srli_epi16(digits, 8)), _mm_set1_epi16(255));
        let good = _mm_movemask_epi8(_mm_or_si128(is_number, is_letter));
        (_mm_cvtsi128_si64(_mm_packus_epi16(pairs, pairs)) as u64, (!good).trailing_zeros() as usize)
    }
}

#[cfg(not(target_arch = "x86_64"))]
pub fn decoded(chars: [u8; 16]) -> (u64, usize) {
    let digit = |c: u8| (c as char).to_digit(16).filter(|_| !c.is_ascii_lowercase());
    let digits = chars.iter().map_while(|&c| digit(c));
    digits.enumerate().fold((0, 0), |(bytes, n), (i, d)| (bytes | (d as u64) << (4 * (i ^ 1)), n + 1))
}
