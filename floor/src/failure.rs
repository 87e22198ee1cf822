//! How a command ends where it does not answer.
use moment::Refusal;

#[derive(Debug, PartialEq)]
pub enum Failure {
    /// The proved code refuses the log: what is printed of it.
    Refused(String),
    /// The words are at fault: a line for each error.
    Words(Vec<String>),
    /// A file cannot be read or written.
    Files(String),
}

impl Failure {
    pub fn code(&self) -> u8 {
        match self {
            Failure::Refused(_) => 1,
            Failure::Words(_) => 2,
            Failure::Files(_) => 3,
        }
    }
}

/// Errors shown at a time.
const SHOWN: usize = 10;

impl std::fmt::Display for Failure {
    fn fmt(&self, f: &mut std::fmt::Formatter) -> std::fmt::Result {
        match self {
            Failure::Refused(told) | Failure::Files(told) => writeln!(f, "{}", told.trim_end()),
            Failure::Words(errors) => {
                errors.iter().take(SHOWN).try_for_each(|e| writeln!(f, "{e}"))?;
                match errors.len().saturating_sub(SHOWN) {
                    0 => Ok(()),
                    more => writeln!(f, "and {more} more"),
                }
            }
        }
    }
}

pub fn words(error: impl Into<String>) -> Failure {
    Failure::Words(vec![error.into()])
}

/// The system's words, without its number of the error.
pub fn files(name: &str, why: std::io::Error) -> Failure {
    let why = why.to_string();
    Failure::Files(format!("{name}: {}", why.split(" (os error").next().unwrap_or(&why)))
}

impl From<Refusal> for Failure {
    fn from(refusal: Refusal) -> Self {
        Failure::Refused(refusal.to_string())
    }
}
