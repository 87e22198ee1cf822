//! A refusal in words: its name, its line and what to do.
use moment::Refusal;

/// What is printed of a refusal. `lines` has for each line of the log that of the day which it comes from, where there is a day.
pub fn refusal(file: &str, lines: Option<&[usize]>, refusal: Refusal) -> String {
    let Refusal { number, line } = refusal;
    let (name, todo) = (refusal.name(), todo(number, lines.is_some()));
    let day = lines.and_then(|lines| lines.get((line as usize).checked_sub(1)?));
    match (lines, day, line) {
        (_, _, 0) => format!("{file}: refused ({number}): {name}; {todo}"),
        (_, Some(day), _) => format!("{file}:{day}: refused ({number}) at line {line} of the log: {name}; {todo}"),
        (Some(_), None, _) => format!("{file}: refused ({number}) at line {line} of the log: {name}; {todo}"),
        (None, None, _) => format!("{file}:{line}: refused ({number}): {name}; {todo}"),
    }
}

/// What to do. A log made from words is refused for its questions alone.
fn todo(number: u8, words: bool) -> &'static str {
    match number {
        9 => {
            "ask it as several questions: one has at most 32 tokens, 12 of them parts, and 16 ways to be true (\"or\" adds ways, \
             \"and\" multiplies them, and those that \"always\" and \"not possibly\" rule out count likewise)"
        }
        16 => {
            "take away the \"not\" or \"always\" before \"nothing from .. to ..\": \
             only moments with nothing on the way can be asked for"
        }
        _ if words => "the words were understood, so this is a fault of floor; report it with the day",
        _ => of_log(number),
    }
}

/// What to do about a log that was not made from words.
fn of_log(number: u8) -> &'static str {
    match number {
        1 => "a log has at most 16,384 bytes; split it where all stations have waited for each other, else moments are missed",
        2 => {
            "a line is digits 0-9 and A-F, two for each of 2 to 100 bytes, and a line feed: no blank, no small letter, no carriage \
             return; was the file edited, or its end cut off?"
        }
        3 => "the bytes of a line add up to zero modulo 256; a digit was changed or lost, so take the line from its source again",
        4 => {
            "a log is one header (10 or 11), then at most 254 events (20), 64 messages (25) and 16 questions (30), in this order; \
             put the line in its place, or split the log where all stations have waited for each other, else moments are missed"
        }
        5 => "a header has 1 to 8 stations, and for each two bytes (kind 10) or four, value and panel (kind 11); correct count or length",
        6 => {
            "an event is a station of the header, its value, its panel if the header is of kind 11, and a clock entry for each station; \
             correct its length or station"
        }
        7 => {
            "an event counts one more of its own station than the one before, of others none that do not stand above it, and all that \
             the events which it counts have seen; is a line missing, twice there or out of order?"
        }
        8 => {
            "a question is one formula: each sign with its operands, each station one of the header, nothing behind it; \
             correct it, or write the day in words"
        }
        10 => "questions count from 0 in the order of the log; ask for one that is there",
        13 => "a moment has a count for each station, none above its events, and holds all that its events have seen; correct the counts",
        15 => {
            "a message goes from an event of one station to an event of another that has seen it by its clock, or to 00 if it never \
             came; correct its stations and numbers, or that clock"
        }
        _ => "this is a fault of floor, not of the log; report it with the log",
    }
}
