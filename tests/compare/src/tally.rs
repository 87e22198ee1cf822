//! Counts of what was met, and their names.

/// One more for each that was met.
pub fn add<const N: usize>(counts: &mut [usize; N], met: [bool; N]) {
    counts.iter_mut().zip(met).for_each(|(n, met)| *n += met as usize);
}

/// How often something was met as false and as true.
pub fn signed(name: &str, [no, yes]: [usize; 2]) -> [(String, usize); 2] {
    [(format!("{name} as false"), no), (format!("{name} as true"), yes)]
}

/// Names beside their counts.
pub fn named(names: &[&str], counts: &[usize]) -> Vec<(String, usize)> {
    names.iter().zip(counts).map(|(name, n)| (name.to_string(), *n)).collect()
}
