//! Over the day: the lines of the moments, and the chains of questions that never were true.
use super::layout::Layout;
use super::path::{at, Path};
use super::routes::{ends, Route};
use super::svg::{Picture, Window};
use super::text::n;

/// A question and one of its moments.
type Moment = (usize, usize);

/// Between the numbers of two moments.
const BETWEEN: f64 = 2.0;

impl Picture<'_> {
    /// Where in a layout each slot is. The numbers of moments have half a width.
    pub fn places(&self, layout: &Layout, badge: f64) -> Vec<f64> {
        let events = || (0..self.stations()).flat_map(|s| (0..self.shown.source.log.stations[s].len()).map(move |k| (s, k)));
        let mut places: Vec<f64> = events().map(|(s, k)| layout.x(s, k)).collect();
        places.extend(events().map(|(s, k)| layout.left(layout.column(s, k))));
        places.extend([0.0, layout.x(0, 0), layout.gutter(layout.len() - 1), self.width(layout, badge)]);
        for question in 0..self.shown.answers.len() {
            for (moment, head) in self.heads(layout, question, badge).into_iter().enumerate() {
                places.extend(self.passed(layout, (question, moment)));
                places.push(head);
            }
        }
        places
    }

    /// What lies before a moment, as an area.
    pub fn past(&self, moment: Moment, y: f64, window: &Window) -> String {
        let (upper, lower, edge, (q, i)) = (self.stations(), self.stations() + 1, self.slots.edge(), moment);
        let area = self.cut(moment, y).line(at(edge, 0.0, lower, 0.0)).line(at(edge, 0.0, upper, y));
        format!("<path class=\"past\" data-of=\"{q}\" data-past=\"{q},{i}\" {}/>\n", window.writing.path(&area))
    }

    /// The line of a moment with its number above it. The first of the two paths is wider than the line, to be hit by a finger.
    pub fn moment(&self, moment: Moment, y: f64, badge: f64, window: &Window) -> String {
        let (line, (q, i)) = (self.cut(moment, y), moment);
        if !self.sees(window, &line) {
            return String::new();
        }
        let (d, head) = (window.writing.path(&line), window.writing.place(self.slots.head(moment), y));
        format!(
            "<g class=\"moment\" data-of=\"{q}\" data-moment=\"{q},{i}\" data-layout=\"{}\"><title>question {}, moment {}</title>\
             <path class=\"hit\" {d}/><path class=\"cut\" {d}/><g {head}>\
             <rect class=\"badge\" x=\"{}\" y=\"-18\" width=\"{}\" height=\"18\" rx=\"4\"/>\
             <text y=\"-4.5\"><tspan class=\"q\">{}.</tspan>{}</text></g></g>\n",
            self.chosen[q][i], q + 1, i + 1, n(-badge), n(2.0 * badge), q + 1, i + 1
        )
    }

    /// From the place of its number, above the first station's line, to the lower edge; past each station in a gutter.
    fn cut(&self, moment: Moment, y: f64) -> Path {
        let straight = self.half() + 6.0;
        let (upper, lower) = (self.stations(), self.stations() + 1);
        let mut before = at(self.slots.head(moment), 0.0, upper, y);
        let mut path = Path::from(before);
        for s in 0..self.stations() {
            let pass = |off: f64| at(self.slots.passing(moment, s), 0.0, s, off);
            let bent = at(before.slot, 0.0, before.row, before.off + 10.0);
            path = path.curve(bent, pass(-straight - 10.0), pass(-straight)).line(pass(straight));
            before = pass(straight);
        }
        path.line(at(before.slot, 0.0, lower, 0.0))
    }

    /// Where the line of a moment passes each station. Lines of one question in one gutter go side by side.
    fn passed(&self, layout: &Layout, (question, moment): Moment) -> Vec<f64> {
        let moments = &self.shown.answers[question].0.answer.moments;
        let apart = (10.0 / moments.len() as f64).min(4.0);
        let aside = (moment as f64 - (moments.len() - 1) as f64 / 2.0) * apart;
        layout.passed(&moments[moment]).into_iter().map(|column| layout.gutter(column) + aside).collect()
    }

    /// The width of a layout, with room for the numbers of all moments of a question.
    pub fn width(&self, layout: &Layout, badge: f64) -> f64 {
        let most = self.shown.answers.iter().map(|(asked, _)| asked.answer.moments.len()).max().unwrap_or(0);
        layout.width().max(most as f64 * (2.0 * badge + BETWEEN))
    }

    /// Where the numbers of a question's moments stand: above their lines, or as near to that as there is room.
    pub fn heads(&self, layout: &Layout, question: usize, badge: f64) -> Vec<f64> {
        let count = self.shown.answers[question].0.answer.moments.len();
        let wanted: Vec<f64> = (0..count).map(|moment| self.passed(layout, (question, moment))[0]).collect();
        let mut order: Vec<usize> = (0..count).collect();
        order.sort_by(|&a, &b| wanted[a].total_cmp(&wanted[b]));
        let sorted: Vec<f64> = order.iter().map(|&moment| wanted[moment]).collect();
        let (apart, width) = (2.0 * badge + BETWEEN, self.width(layout, badge));
        let mut heads = vec![0.0; count];
        for (place, (moment, x)) in order.into_iter().zip(spread(&sorted, apart)).enumerate() {
            let room = |places: usize| badge + places as f64 * apart;
            heads[moment] = x.min(width - room(count - 1 - place)).max(room(place));
        }
        heads
    }

    /// An event's rings: one for each question whose chain it is in, with the question's number where all questions are shown.
    pub fn rings(&self, station: usize, number: usize) -> String {
        let (w, h) = (self.shown.half_width(station, number) + 4.0, self.half() + 4.0);
        let (left, up) = self.corners(station, number).1;
        let (x, y) = (if left { -w } else { w - 16.0 }, if up { -h - 3.0 } else { h + 12.0 });
        let points = |q: &usize| self.shown.marks(*q).is_some_and(|marks| marks.events.contains(&(station, number as u8)));
        let ring = |(place, q): (usize, usize)| {
            format!(
                "<g class=\"ring\" data-of=\"{q}\"><rect x=\"{}\" y=\"{}\" width=\"{}\" height=\"{}\" rx=\"{}\"/>\
                 <text class=\"q\" x=\"{}\" y=\"{}\">Q{}</text></g>",
                n(-w), n(-h), n(2.0 * w), n(2.0 * h), n(h.min(16.0)), n(x + 24.0 * place as f64), n(y), q + 1
            )
        };
        (0..self.shown.answers.len()).filter(points).enumerate().map(ring).collect()
    }

    /// The clock entries of a question's chain as arrows, over those that are there and beside them.
    pub fn chain(&self, question: usize, window: &Window) -> String {
        let arrows = self.shown.marks(question).map_or(&[][..], |marks| &marks.arrows[..]);
        let route = |arrow| {
            let (from, to) = ends(arrow);
            self.routes.between(from, to).filter(|r| self.sees(window, &r.path))
        };
        let arrow = |r: &Route| {
            let ((i, k), (j, m)) = (r.from, r.to);
            format!("<path class=\"chain\" data-of=\"{question}\" data-chain=\"{i},{k} {j},{m}\" {}/>\n", window.writing.path(&r.path))
        };
        arrows.iter().filter_map(route).map(arrow).collect()
    }
}

/// Places in order at least so far apart, and altogether as near as can be to those wanted: places too close become a group about the mean.
fn spread(wanted: &[f64], apart: f64) -> Vec<f64> {
    let mut groups: Vec<(f64, usize)> = vec![];
    for (i, x) in wanted.iter().enumerate() {
        groups.push((x - i as f64 * apart, 1));
        while let [.., (a, many), (b, more)] = groups[..] {
            if a <= b {
                break;
            }
            groups.truncate(groups.len() - 2);
            groups.push(((a * many as f64 + b * more as f64) / (many + more) as f64, many + more));
        }
    }
    let starts = groups.into_iter().flat_map(|(x, many)| vec![x; many]);
    starts.enumerate().map(|(i, x)| x + i as f64 * apart).collect()
}
