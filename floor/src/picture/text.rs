//! Text for a page: escaped, measured, cut short.

/// For any place of a page, an attribute's value included. Control characters, which a page cannot have, are shown as unknown.
pub fn escape(text: &str) -> String {
    let mut out = String::with_capacity(text.len());
    for c in text.chars() {
        match c {
            '&' => out.push_str("&amp;"),
            '<' => out.push_str("&lt;"),
            '>' => out.push_str("&gt;"),
            '"' => out.push_str("&quot;"),
            '\'' => out.push_str("&#39;"),
            c if c.is_control() => out.push('\u{fffd}'),
            c => out.push(c),
        }
    }
    out
}

/// About how wide a text is in a sans serif of this size, for a wide one of these fonts.
pub fn width(text: &str, size: f64) -> f64 {
    let each = |c: char| match c {
        'i' | 'j' | 'l' | 't' | 'f' | ' ' | '.' | '-' => 0.45,
        'm' | 'w' | 'M' | 'W' => 1.0,
        'A'..='Z' => 0.75,
        c if c.is_ascii() => 0.66,
        _ => 1.05,
    };
    text.chars().map(each).sum::<f64>() * size
}

/// Letters of a name in the picture, at most.
pub const LETTERS: usize = 14;

pub fn shortened(text: &str) -> String {
    match text.chars().count() {
        0..=LETTERS => text.to_string(),
        _ => text.chars().take(LETTERS - 1).chain(['…']).collect(),
    }
}

/// A coordinate, to a tenth.
pub fn n(x: f64) -> String {
    // Adding 0 makes -0 into 0.
    ((x * 10.0).round() / 10.0 + 0.0).to_string()
}

/// `1 event`, `2 events`.
pub fn counted(count: usize, what: &str) -> String {
    match count {
        0 => format!("no {what}s"),
        1 => format!("1 {what}"),
        _ => format!("{count} {what}s"),
    }
}
