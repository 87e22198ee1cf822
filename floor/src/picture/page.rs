//! The whole page.
use super::legend::legend;
use super::svg::Picture;
use super::text::{counted, escape};
use super::Shown;

const CSS: &str = include_str!("page.css");
const JS: &str = include_str!("page.js");

/// Nothing is loaded, from anywhere.
const POLICY: &str = "default-src 'none'; style-src 'unsafe-inline'; script-src 'unsafe-inline'";

pub fn page(shown: &Shown) -> String {
    let picture = Picture::new(shown);
    let (title, log) = (escape(&shown.title()), &shown.source.log);
    let events = log.stations.iter().map(|events| events.len() - 1).sum();
    let counts = [(log.stations.len(), "station"), (events, "event"), (log.messages.len(), "message"), (log.questions.len(), "question")];
    let counts: Vec<String> = counts.into_iter().map(|(count, what)| counted(count, what)).collect();
    format!(
        "<!DOCTYPE html>\n<html lang=\"en\">\n<head>\n<meta charset=\"utf-8\">\n\
         <meta http-equiv=\"Content-Security-Policy\" content=\"{POLICY}\">\n\
         <meta name=\"viewport\" content=\"width=device-width, initial-scale=1\">\n<title>{title}</title>\n<style>\n{CSS}</style>\n\
         </head>\n<body>\n\
         <header>\n<h1><bdi>{title}</bdi></h1>\n<p>{}</p>\n</header>\n\
         <main>\n{}{}{}{}{}</main>\n<script>\n{JS}</script>\n</body>\n</html>\n",
        counts.join(", "), markers(), picture.figure(), picture.in_rows(), legend(shown), shown.questions()
    )
}

/// Arrowheads, and what silent events are filled with. They are in a drawing of their own, which is never hidden.
fn markers() -> String {
    let head = |id: &str, size: usize, d: &str| {
        let tip = size as f64 - 0.5;
        format!(
            "<marker id=\"{id}\" refX=\"{tip}\" refY=\"{}\" markerWidth=\"{size}\" markerHeight=\"{size}\" \
             markerUnits=\"userSpaceOnUse\" orient=\"auto\"><path d=\"{d}\"/></marker>",
            size as f64 / 2.0
        )
    };
    format!(
        "<svg class=\"markers\" width=\"0\" height=\"0\" aria-hidden=\"true\"><defs>{}{}{}\
         <pattern id=\"hatch\" width=\"5\" height=\"5\" patternUnits=\"userSpaceOnUse\" patternTransform=\"rotate(45)\">\
         <rect width=\"5\" height=\"5\"/><path d=\"M0,0V5\"/></pattern></defs></svg>\n",
        head("clock-head", 8, "M0,0.8L8,4L0,7.2Z"),
        head("message-head", 10, "M1,1L9.5,5L1,9"),
        head("chain-head", 11, "M0,0.5L11,5.5L0,10.5Z")
    )
}
