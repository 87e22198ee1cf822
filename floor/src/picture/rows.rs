//! The picture for print, and for browsers without scripts: in the first layout, broken over rows, with the moments and chains of all
//! questions.
use super::path::{Places, Writing};
use super::svg::{Picture, Window};
use super::text::{escape, n, shortened, width};

/// The most width of a row's columns, and beside them what is shown of the next ones.
const ROW: usize = 1000;
const BESIDE: f64 = 22.0;
/// The room for the numbers of one question's moments, and half the width of such a number.
const LANE: f64 = 21.0;
const BADGE: f64 = 19.0;

impl Picture<'_> {
    pub fn in_rows(&self) -> String {
        // As many rows as have to be, and these about equally long.
        let least = self.windows(ROW).len();
        let even = (ROW / 2..ROW).step_by(10).find(|&most| self.windows(most).len() == least).unwrap_or(ROW);
        let rows: String = self.windows(even).into_iter().map(|(first, last)| self.row(first, last)).collect();
        format!("<figure class=\"rows\">\n{rows}</figure>\n")
    }

    /// The first and the last column of each row.
    fn windows(&self, most: usize) -> Vec<(usize, usize)> {
        let layout = &self.layouts[0];
        let mut windows: Vec<(usize, usize)> = vec![];
        for column in 0..layout.len() {
            match windows.last_mut() {
                Some((first, last)) if layout.gutter(column) - layout.left(*first) <= most as f64 => *last = column,
                _ => windows.push((column, column)),
            }
        }
        windows
    }

    fn row(&self, first: usize, last: usize) -> String {
        let layout = &self.layouts[0];
        let left = layout.left(first) - BESIDE;
        let right = if last + 1 == layout.len() { self.width(layout, BADGE) } else { layout.gutter(last) + BESIDE };
        let counts: Vec<usize> = self.shown.answers.iter().map(|(asked, _)| asked.answer.moments.len()).collect();
        let mut xs = self.places(layout, BADGE);
        let inside = |q: &usize| (0..counts[*q]).any(|i| (left..right).contains(&xs[self.slots.head((*q, i))]));
        let lanes: Vec<usize> = (0..counts.len()).filter(inside).collect();
        let y = |q: usize| lanes.iter().position(|&other| other == q).map_or(0.0, |lane| (lane + 1) as f64 * LANE);
        if first > 0 {
            xs[self.slots.start()] = layout.left(first);
        }
        xs[self.slots.end()] = layout.gutter(last);
        let places = Places { xs, rows: self.rows(lanes.len() as f64 * LANE + 4.0) };
        let window = Window { columns: first..=last, left, right, writing: Writing::Fixed(&places) };
        let moments = (0..counts.len()).flat_map(|q| (0..counts[q]).map(move |i| (q, i)));
        let moments: String = moments.map(|(q, i)| self.moment((q, i), y(q), BADGE, &window)).collect();
        self.framed(&places.rows, &window, &format!("{}{moments}", self.behind(&places.rows, &window)))
    }

    /// What the lines of moments go over.
    fn behind(&self, rows: &[f64], window: &Window) -> String {
        let chains: String = (0..self.shown.answers.len()).map(|q| self.chain(q, window)).collect();
        let station = |s: usize| {
            format!("<g class=\"station\" transform=\"translate(0,{})\">\n{}</g>\n", n(rows[s]), self.station(s, window))
        };
        let stations: String = (0..self.stations()).map(station).collect();
        format!("<g class=\"lines\">\n{}</g>\n<g class=\"links\">\n{}</g>\n{chains}{stations}", self.lines(window), self.links(window))
    }

    /// What is drawn, with the stations' names before it.
    fn framed(&self, rows: &[f64], window: &Window, drawn: &str) -> String {
        let names: Vec<String> = (0..self.stations()).map(|s| shortened(&self.shown.source.names.station(s))).collect();
        let margin = names.iter().map(|name| width(name, 13.0)).fold(0.0, f64::max).ceil() + 8.0;
        let name = |(s, name): (usize, &String)| {
            format!("<text class=\"name\" x=\"0\" y=\"{}\">{}</text>\n", n(rows[s] + 4.5), escape(name))
        };
        let names: String = names.iter().enumerate().map(name).collect();
        let (whole, part, height) = (n(margin + window.right - window.left), n(window.right - window.left), n(rows[self.stations() + 1]));
        format!(
            "<svg role=\"group\" viewBox=\"0 0 {whole} {height}\" style=\"max-width:{whole}px\">\n<desc>{}</desc>\n{names}\
             <svg x=\"{}\" y=\"0\" width=\"{part}\" height=\"{height}\" viewBox=\"{} 0 {part} {height}\">\n{drawn}</svg>\n</svg>\n",
            self.description(), n(margin), n(window.left)
        )
    }
}
