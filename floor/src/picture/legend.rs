//! What the signs of a picture mean: those that it has.
use super::text::LETTERS;
use super::Shown;
use crate::names::SILENT;

const ORDER: &str =
    " <span class=\"states\">The events are in an order that the messages allow and in which the chosen moment comes.</span>";

pub fn legend(shown: &Shown) -> String {
    let item = |(class, sign, words): (&str, String, &str)| {
        format!("<li{class}><svg width=\"44\" height=\"20\" aria-hidden=\"true\">{sign}</svg>{words}</li>\n")
    };
    let items: String = signs(shown).into_iter().filter(|(there, _)| *there).map(|(_, sign)| item(sign)).collect();
    let cut = if has_long_names(shown) { " Long names end in … in the picture; the tables have them whole." } else { "" };
    let order = if shown.answers.iter().any(|(_, never)| never.is_none()) { ORDER } else { "" };
    format!(
        "<section class=\"legend\" aria-label=\"Signs\">\n<ul>\n{items}</ul>\n\
         <p>Time goes to the right, but widths are no times: an event stands right of all that it has seen, and of two events that no \
         arrows join either may have come first.{order} Arrows that others imply are left out.{cut}</p>\n</section>\n"
    )
}

/// An attribute of the sign's item, the sign, and what it means; before them whether the picture has it.
type Sign = (bool, (&'static str, String, &'static str));

fn signs(shown: &Shown) -> Vec<Sign> {
    let log = &shown.source.log;
    let events = log.stations.iter().any(|events| events.len() > 1);
    let silent = log.stations.iter().flatten().any(|e| e.value == SILENT);
    let (came, lost) = (log.messages.iter().any(|m| m.received > 0), log.messages.iter().any(|m| m.received == 0));
    let seen = (0..log.stations.len()).any(|s| (1..log.stations[s].len()).any(|k| !log.directly_seen(s, k).is_empty()));
    let moments = shown.answers.iter().any(|(_, never)| never.is_none());
    let chains = (0..shown.answers.len()).any(|q| shown.marks(q).is_some());
    let value = |plain, panel| if log.panels { panel } else { plain };
    let mark = |class: &str, x: usize, width: usize, round: usize| {
        format!("<g class=\"{class}\"><rect x=\"{x}\" y=\"3\" width=\"{width}\" height=\"14\" rx=\"{round}\"/></g>")
    };
    let arrow = |class: &str| format!("<path class=\"{class}\" d=\"M3,10H40\"/>");
    let open_end = "<g class=\"lost\"><path d=\"M3,10H34\"/><circle cx=\"37\" cy=\"10\" r=\"3\"/></g>".to_string();
    let line = "<g class=\"moment on\"><path class=\"cut\" d=\"M22,0V20\"/></g>".to_string();
    let states = mark("event last", 2, 18, 7) + &mark("event after", 25, 18, 7);
    vec![
        (true, ("", mark("event", 8, 28, 2), value("value at the start", "value and panel at the start"))),
        (events, ("", mark("event", 8, 28, 7), value("event: value; small: its number", "event: value and panel; small: its number"))),
        (silent, ("", mark("event silent", 8, 28, 7), "silent: the station gave no value")),
        (seen, ("", arrow("clock"), "the second event has seen the first, by its clock")),
        (came, ("", arrow("message"), "message; it stands for a clock’s arrow too")),
        (lost, ("", open_end, "message that never came")),
        (moments, ("", line, "moment: what is left of its line has happened")),
        (moments, (" class=\"states\"", states, "last event at the moment; event after it")),
        (chains, ("", mark("ring", 8, 28, 8), "event of the chain that rules the question out")),
        (chains, ("", arrow("chain"), "clock entry of the chain")),
    ]
}

fn has_long_names(shown: &Shown) -> bool {
    let (long, names) = (|name: String| name.chars().count() > LETTERS, &shown.source.names);
    let values = |s: usize| shown.source.log.stations[s].iter().any(|event| long(names.report(s, event.value)));
    (0..shown.source.log.stations.len()).any(|s| long(names.station(s)) || values(s))
}
