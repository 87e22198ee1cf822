//! What can be a name.
use super::errors::quote;
use super::reader::Reader;
use crate::names::{is_formed, is_word, LONGEST};

/// A word or sign of the language.
pub fn is_own(word: &str) -> bool {
    is_word(word) || matches!(word, "(" | ")" | "=" | "..")
}

/// What keeps a word from being a name.
pub fn fault_of(word: &str) -> Option<String> {
    let size = word.chars().count();
    if is_word(word) {
        return Some(format!("\"{word}\" is a word of the language and cannot be a name; choose another, such as \"{word}-1\""));
    }
    if !is_formed(word) {
        return Some(format!("{} is no name; a name is letters, digits, - and _, beginning with a letter", quote(word)));
    }
    (size > LONGEST).then(|| format!("the name {} has {size} characters; a name has at most {LONGEST}", quote(word)))
}

/// The name that is given here, before the word that follows a name. Where it cannot be one and the next word can, that is taken for it.
pub fn given<'a>(reader: &mut Reader<'a, '_>, follows: &str) -> Option<&'a str> {
    if reader.peek() == Some(follows) {
        reader.fault(format!("a name is missing before \"{follows}\"; write: {}", reader.form()));
        return None;
    }
    let name = reader.need("a name")?;
    let Some(fault) = fault_of(name) else { return Some(name) };
    reader.fault(fault);
    let next = reader.peek().filter(|next| fault_of(next).is_none());
    reader.at += usize::from(next.is_some());
    next.or(Some(name))
}
