//! Which word may have been meant.

/// Looks for near words, until its effort is spent: whatever a file holds, its errors are told in a moment.
pub struct Speller {
    effort: usize,
}

/// Pairs of letters compared, at most.
const EFFORT: usize = 20_000_000;

/// Words longer than this are near to none.
const LONGEST: usize = 64;

impl Speller {
    pub fn new() -> Self {
        Speller { effort: EFFORT }
    }

    /// The one that is nearest to a word, if it is near and no other is as near.
    pub fn nearest<'c>(&mut self, word: &str, candidates: impl IntoIterator<Item = &'c str>) -> Option<&'c str> {
        let word = letters(word);
        let mut best: Option<(usize, &str)> = None;
        let mut alone = true;
        for candidate in candidates {
            self.effort = self.effort.checked_sub(candidate.len() * word.len().max(1))?;
            let Some(distance) = near(&word, &letters(candidate)) else { continue };
            match best {
                Some((least, _)) if distance > least => {}
                Some((least, _)) if distance == least => alone = false,
                _ => (best, alone) = (Some((distance, candidate)), true),
            }
        }
        best.filter(|_| alone).map(|(_, candidate)| candidate)
    }
}

/// The distance of two words that are near.
fn near(a: &[char], b: &[char]) -> Option<usize> {
    let most = match a.len().max(b.len()) {
        0 | 1 => 0,
        2..=4 => 1,
        5..=8 => 2,
        9..=LONGEST => 3,
        _ => return None,
    };
    if a.len().abs_diff(b.len()) > most { None } else { Some(distance(a, b)).filter(|d| *d <= most) }
}

/// Capitals count as small letters.
fn letters(word: &str) -> Vec<char> {
    word.chars().flat_map(char::to_lowercase).take(LONGEST + 1).collect()
}

/// Letters put in, left out or changed, and neighbours swapped, that make one word of the other.
fn distance(a: &[char], b: &[char]) -> usize {
    let (mut before, mut last): (Vec<usize>, Vec<usize>) = (vec![], (0..=b.len()).collect());
    for i in 1..=a.len() {
        let mut row = vec![i];
        for j in 1..=b.len() {
            let changed = last[j - 1] + usize::from(a[i - 1] != b[j - 1]);
            let mut least = changed.min(last[j] + 1).min(row[j - 1] + 1);
            if i > 1 && j > 1 && a[i - 1] == b[j - 2] && a[i - 2] == b[j - 1] {
                least = least.min(before[j - 2] + 1);
            }
            row.push(least);
        }
        (before, last) = (last, row);
    }
    last[b.len()]
}
