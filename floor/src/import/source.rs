//! The file that is imported, and how its texts are shown.
use crate::failure::Failure;
use crate::files;
use crate::names::SILENT;

/// The most characters that are shown of a text.
const SHOWN: usize = 120;

/// A file's text without a mark of its byte order.
pub fn read(name: &str) -> Result<String, Failure> {
    let text = files::read_text(name)?;
    Ok(match text.strip_prefix('\u{feff}') {
        Some(rest) => rest.to_string(),
        None => text,
    })
}

/// The lines of a text, each with its number, without their ends.
pub fn lines(text: &str) -> impl Iterator<Item = (usize, &str)> {
    (1..).zip(text.lines())
}

/// A character, or what cannot be seen written with `\`: the end of a line, signs that turn the direction of the text, and such.
fn visible(c: char) -> String {
    let hidden = matches!(c, '\u{200b}'..='\u{200f}' | '\u{2028}'..='\u{202e}' | '\u{2060}'..='\u{206f}' | '\u{feff}');
    if hidden || c.is_control() { c.escape_default().to_string() } else { c.to_string() }
}

/// A text on one line, and no longer than can be read.
pub fn plain(text: &str) -> String {
    let shown: String = text.chars().take(SHOWN).map(visible).collect();
    match text.chars().count() {
        count if count > SHOWN => format!("{shown}... ({count} characters)"),
        _ => shown,
    }
}

/// A text between its quotes.
pub fn quoted(text: &str) -> String {
    format!("\"{}\"", plain(text))
}

/// A value that a station may report: a number from 0 to 65534.
pub fn number(text: &str) -> Option<u16> {
    let digits = !text.is_empty() && text.bytes().all(|b| b.is_ascii_digit());
    text.parse().ok().filter(|value| digits && *value < SILENT)
}

/// The same, or `silent`.
pub fn value(text: &str) -> Option<u16> {
    if text == "silent" { Some(SILENT) } else { number(text) }
}
