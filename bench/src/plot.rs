//! The times as a plot: both axes logarithmic, a line for each code at 8 stations, a bar from the least to the greatest of the runs.
use crate::codes::PEERS;
use crate::timed::{Row, Spread};
use std::fmt::Write;

const LEFT: f64 = 60.0;
const RIGHT: f64 = 520.0;
const TOP: f64 = 50.0;
const BOTTOM: f64 = 370.0;
const DECADES: i32 = 4;

fn x(events: usize) -> f64 {
    LEFT + 20.0 + (events as f64 / 8.0).log2() / 5.0 * (RIGHT - LEFT - 40.0)
}

fn y(micros: f64) -> f64 {
    BOTTOM - micros.log10() / DECADES as f64 * (BOTTOM - TOP)
}

fn axes(s: &mut String, rows: &[&Row]) {
    for decade in 0..=DECADES {
        let at = y(10f64.powi(decade));
        writeln!(s, "<line x1=\"{LEFT}\" x2=\"{RIGHT}\" y1=\"{at}\" y2=\"{at}\" stroke=\"#ddd\"/>").unwrap();
        writeln!(s, "<text x=\"{}\" y=\"{}\" text-anchor=\"end\">{}</text>", LEFT - 8.0, at + 4.0, 10f64.powi(decade)).unwrap();
    }
    for r in rows {
        writeln!(s, "<text x=\"{:.1}\" y=\"{}\" text-anchor=\"middle\">{}</text>", x(r.events), BOTTOM + 20.0, r.events).unwrap();
    }
    writeln!(s, "<text x=\"{}\" y=\"{}\" text-anchor=\"middle\">events</text>", (LEFT + RIGHT) / 2.0, BOTTOM + 40.0).unwrap();
}

fn curve(s: &mut String, place: usize, name: &str, colour: &str, points: &[(usize, Spread)]) {
    let path: Vec<String> = points.iter().map(|(e, t)| format!("{:.1},{:.1}", x(*e), y(t.median))).collect();
    writeln!(s, "<polyline points=\"{}\" fill=\"none\" stroke=\"{colour}\" stroke-width=\"2\"/>", path.join(" ")).unwrap();
    for (e, t) in points {
        let (at, low, high) = (x(*e), y(t.low), y(t.high));
        writeln!(s, "<line x1=\"{at:.1}\" x2=\"{at:.1}\" y1=\"{low:.1}\" y2=\"{high:.1}\" stroke=\"{colour}\" stroke-width=\"5\"/>").unwrap();
    }
    writeln!(s, "<text x=\"{}\" y=\"{}\" fill=\"{colour}\">{name}</text>", RIGHT + 10.0, TOP + 20.0 * place as f64).unwrap();
}

pub fn svg(rows: &[Row]) -> String {
    let rows: Vec<&Row> = rows.iter().filter(|r| r.stations == 8).collect();
    let of = |code: usize| rows.iter().map(|r| (r.events, r.time(code))).collect::<Vec<_>>();
    let listing: Vec<_> = rows.iter().filter_map(|r| Some((r.events, r.listing()?))).collect();
    let mut s = String::from("<svg xmlns=\"http://www.w3.org/2000/svg\" viewBox=\"0 0 620 420\" font-family=\"sans-serif\" font-size=\"12\">\n");
    s += "<rect width=\"620\" height=\"420\" fill=\"white\"/>\n";
    s += "<text x=\"20\" y=\"24\" font-size=\"15\">One Answer at 8 stations, width 16: microseconds by events</text>\n";
    axes(&mut s, &rows);
    curve(&mut s, 0, "listing", "#888", &listing);
    for (i, p) in PEERS.iter().enumerate() {
        curve(&mut s, PEERS.len() - i, p.name, p.colour, &of(i + 1));
    }
    curve(&mut s, PEERS.len() + 1, "proved", "#0a6", &of(0));
    s + "</svg>\n"
}
