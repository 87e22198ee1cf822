//! The picture as SVG: what both of its forms have, the one that can be scrolled and folded, and the one in rows for print.
use super::labels::half_height;
use super::layout::{layouts, Layout};
use super::path::{at, Path, Writing};
use super::routes::{Kind, Route, Routes, Stub};
use super::slots::Slots;
use super::text::{escape, n};
use super::Shown;
use std::ops::RangeInclusive;

pub struct Picture<'a> {
    pub shown: &'a Shown,
    pub slots: Slots,
    pub layouts: Vec<Layout>,
    /// For each question the layout in which each of its moments is shown.
    pub chosen: Vec<Vec<usize>>,
    pub routes: Routes,
}

/// A part of the picture, or all of it: which columns of the first layout it has, between which two x, and how places are written.
pub struct Window<'a> {
    pub columns: RangeInclusive<usize>,
    pub left: f64,
    pub right: f64,
    pub writing: Writing<'a>,
}

/// The height of the room for the numbers of moments, above the stations' lines.
pub const TOP: f64 = 34.0;

impl<'a> Picture<'a> {
    pub fn new(shown: &'a Shown) -> Picture<'a> {
        let (slots, (layouts, chosen)) = (Slots::new(shown), layouts(shown));
        let routes = Routes::new(shown, &slots, &layouts[0]);
        Picture { shown, slots, layouts, chosen, routes }
    }

    pub fn half(&self) -> f64 {
        half_height(self.shown.source.log.panels)
    }

    /// From one station's line to the next.
    pub fn pitch(&self) -> f64 {
        2.0 * self.half() + 41.0
    }

    pub fn stations(&self) -> usize {
        self.shown.source.log.stations.len()
    }

    /// Where each station's line is, and then the upper and the lower edge.
    pub fn rows(&self, top: f64) -> Vec<f64> {
        let line = |s: usize| top + (s as f64 + 0.5) * self.pitch();
        (0..self.stations()).map(line).chain([0.0, top + self.stations() as f64 * self.pitch()]).collect()
    }

    /// Whether some of a path is in a part.
    pub fn sees(&self, window: &Window, path: &Path) -> bool {
        match &window.writing {
            Writing::Moving => true,
            Writing::Fixed(places) => path.meets(&places.xs, window.left, window.right),
        }
    }

    /// The stations' lines.
    pub fn lines(&self, window: &Window) -> String {
        let line = |s: usize| Path::from(at(self.slots.start(), 0.0, s, 0.0)).line(at(self.slots.end(), 0.0, s, 0.0));
        (0..self.stations()).map(|s| format!("<path class=\"line\" {}/>\n", window.writing.path(&line(s)))).collect()
    }

    /// What clocks tell, and messages.
    pub fn links(&self, window: &Window) -> String {
        let link = |route: &Route| {
            let ((i, k), (j, m)) = (route.from, route.to);
            let d = window.writing.path(&route.path);
            match route.kind {
                Kind::Clock => format!("<path class=\"clock\" data-arrow=\"{i},{k} {j},{m}\" {d}/>\n"),
                Kind::Message(number) => {
                    let title = self.message_title(number);
                    format!("<path class=\"message\" data-message=\"{number}\" role=\"img\" {d}><title>{title}</title></path>\n")
                }
                Kind::Chain => String::new(),
            }
        };
        self.routes.routes.iter().filter(|r| self.sees(window, &r.path)).map(link).collect()
    }

    pub fn message_title(&self, number: usize) -> String {
        let (m, names) = (&self.shown.source.log.messages[number], &self.shown.source.names);
        let received = if m.received == 0 { "never came".to_string() } else { format!("event {}", m.received) };
        let (sender, receiver) = (names.station(m.sender), names.station(m.receiver));
        escape(&format!("message (line {}): {sender}, event {}, to {receiver}, {received}", self.shown.source.line(m.line), m.sent))
    }

    /// A station's events, around y 0.
    pub fn station(&self, station: usize, window: &Window) -> String {
        let seen = |k: &usize| window.columns.contains(&self.layouts[0].column(station, *k));
        (0..self.shown.source.log.stations[station].len()).filter(seen).map(|k| self.event(station, k, window)).collect()
    }

    fn event(&self, station: usize, number: usize, window: &Window) -> String {
        let event = &self.shown.source.log.stations[station][number];
        let (w, h) = (self.shown.half_width(station, number), self.half());
        let hook = if number == 0 { format!("data-initial=\"{station}\"") } else { format!("data-event=\"{station},{number}\"") };
        let silent = if event.value == crate::names::SILENT { " silent" } else { "" };
        let value = escape(&self.shown.value_label(station, number));
        let label = match self.shown.panel_label(station, number) {
            Some(panel) => format!("<text y=\"-1\">{value}</text><text class=\"panel\" y=\"11.5\">{panel}</text>"),
            None => format!("<text y=\"4.5\">{value}</text>"),
        };
        let (round, count) = match number {
            0 => (2.0, String::new()),
            _ => (h.min(12.0), self.count(station, number)),
        };
        format!(
            "<g class=\"event{silent}\" {hook} role=\"img\" {}><title>{}</title>\
             <rect x=\"{}\" y=\"{}\" width=\"{}\" height=\"{}\" rx=\"{}\"/>{label}{count}{}{}</g>\n",
            window.writing.place(self.slots.event(station, number), 0.0), self.event_title(station, number), n(-w), n(-h), n(2.0 * w),
            n(2.0 * h), n(round), self.stubs(station, number), self.rings(station, number)
        )
    }

    /// An event's number, at a corner of its mark.
    fn count(&self, station: usize, number: usize) -> String {
        let (left, up) = self.corners(station, number).0;
        let inside = self.shown.half_width(station, number) - 3.0;
        let (x, anchor) = if left { (-inside, "start") } else { (inside, "end") };
        let y = if up { -self.half() - 7.0 } else { self.half() + 12.0 };
        format!("<text class=\"count\" x=\"{}\" y=\"{}\" text-anchor=\"{anchor}\">{number}</text>", n(x), n(y))
    }

    /// Corners of an event's mark, as left and up, for its number and for those of questions whose chain it is in. Lines come from the left
    /// and leave to the right, so these are at corners without a line if there are such.
    pub fn corners(&self, station: usize, number: usize) -> ((bool, bool), (bool, bool)) {
        let comes = |r: &Route| (r.to == (station, number)).then_some((true, r.from.0 < station));
        let leaves = |r: &Route| (r.from == (station, number)).then_some((false, r.to.0 < station));
        let lines: Vec<(bool, bool)> = self.routes.routes.iter().filter_map(|r| comes(r).or(leaves(r))).collect();
        let wanted = [(true, false), (false, false), (false, true), (true, true)];
        let free = |corner: &&(bool, bool)| !lines.contains(corner);
        let count = *wanted.iter().find(free).unwrap_or(&(true, false));
        let ring = *wanted.iter().rev().filter(|corner| **corner != count).find(free).unwrap_or(&(false, true));
        (count, ring)
    }

    fn event_title(&self, station: usize, number: usize) -> String {
        let event = &self.shown.source.log.stations[station][number];
        let panel = if self.shown.source.log.panels { format!(", panel {}", event.panel) } else { String::new() };
        let report = format!("{}{panel}", self.shown.value(station, event.value));
        let name = self.shown.source.names.station(station);
        let clock: String = event.clock.iter().map(|k| format!("{k:02X}")).collect();
        escape(&match number {
            0 => format!("{name} at the start: {report}"),
            _ => format!("{name}, event {number} (line {}): {report}; clock {clock}", self.shown.source.line(event.line)),
        })
    }

    /// The messages that leave with an event and never came: an open end each, and one label for those on either side.
    fn stubs(&self, station: usize, number: usize) -> String {
        let h = self.half();
        let messages = &self.shown.source.log.messages;
        let of_event = |s: &&Stub| (messages[s.message].sender, messages[s.message].sent as usize) == (station, number);
        let stubs = self.routes.stubs.iter().filter(of_event);
        let stub = |s: &Stub| {
            let way = if s.up { -1.0 } else { 1.0 };
            let (port, title) = (n(s.port), self.message_title(s.message));
            format!(
                "<g class=\"lost\" data-message=\"{}\" role=\"img\"><title>{title}</title><path d=\"M{port},{}V{}\"/>\
                 <circle cx=\"{port}\" cy=\"{}\" r=\"3\"/></g>",
                s.message, n(way * h), n(way * (h + 11.0)), n(way * (h + 14.0))
            )
        };
        let label = |(up, y): (bool, f64)| match self.shown.lost(station, number, up) {
            0 => String::new(),
            count => format!("<text class=\"never\" y=\"{}\">{}</text>", n(y), self.shown.lost_label(count)),
        };
        stubs.map(stub).chain([(true, -h - 20.0), (false, h + 27.0)].map(label)).collect()
    }
}
