//! The picture that can be scrolled, zoomed and folded, and that changes its layout by what is chosen. page.js puts things in their places:
//! it is given the slots' places in each layout, and paths with each point as SLOT+BESIDE,ROW:OFFSET.
use super::path::Writing;
use super::svg::{Picture, Window, TOP};
use super::text::{counted, escape, n};

/// Half the width of a moment's number.
const BADGE: f64 = 14.0;

impl Picture<'_> {
    pub fn figure(&self) -> String {
        format!(
            "<figure class=\"day\">\n<div class=\"tools\" role=\"group\" aria-label=\"Zoom\">\
             <button type=\"button\" data-zoom=\"-1\" aria-label=\"Zoom out\" title=\"Zoom out (-)\">−</button>\
             <output aria-live=\"polite\">100%</output>\
             <button type=\"button\" data-zoom=\"1\" aria-label=\"Zoom in\" title=\"Zoom in (+)\">+</button>\
             <button type=\"button\" data-zoom=\"0\" title=\"The whole day (0)\">Whole day</button>\
             <span class=\"keys\">In the picture: <kbd>+</kbd> <kbd>−</kbd> <kbd>0</kbd> zoom, <kbd>←</kbd> <kbd>→</kbd> scroll. \
             A station’s button folds its line.</span></div>\n\
             <div class=\"frame\">\n<div class=\"names\">\n{}</div>\n\
             <div class=\"scroller\" tabindex=\"0\" role=\"region\" aria-label=\"Picture of the day\">\n{}</div>\n</div>\n</figure>\n",
            self.fold_buttons(), self.whole()
        )
    }

    fn fold_buttons(&self) -> String {
        let button = |s: usize| {
            let name = escape(&self.shown.source.names.station(s));
            format!(
                "<button type=\"button\" data-fold=\"{s}\" aria-expanded=\"true\" title=\"Fold or unfold {name}\">\
                 <bdi>{name}</bdi></button>\n"
            )
        };
        (0..self.stations()).map(button).collect()
    }

    fn whole(&self) -> String {
        let window = Window { columns: 0..=usize::MAX, left: 0.0, right: f64::MAX, writing: Writing::Moving };
        let (mut pasts, mut moments, mut chains) = (String::new(), String::new(), String::new());
        for (q, (asked, _)) in self.shown.answers.iter().enumerate() {
            for i in 0..asked.answer.moments.len() {
                pasts += &self.past((q, i), TOP - 10.0, &window);
                moments += &self.moment((q, i), TOP - 10.0, BADGE, &window);
            }
            chains += &self.chain(q, &window);
        }
        let station = |s: usize| format!("<g class=\"station\" data-station=\"{s}\">\n{}</g>\n", self.station(s, &window));
        let stations: String = (0..self.stations()).map(station).collect();
        let layout = |layout| self.places(layout, BADGE).into_iter().map(n).collect::<Vec<String>>().join(" ");
        let layouts: Vec<String> = self.layouts.iter().map(layout).collect();
        format!(
            "<svg role=\"group\" aria-labelledby=\"picture-title picture-desc\" data-top=\"{TOP}\" data-pitch=\"{}\" data-width=\"{}\"\n\
             data-layouts=\"{}\">\n<title id=\"picture-title\">{}</title>\n<desc id=\"picture-desc\">{}</desc>\n\
             {pasts}<g class=\"lines\">\n{}</g>\n<g class=\"links\">\n{}</g>\n{chains}{stations}{moments}</svg>\n",
            n(self.pitch()), self.slots.width(), layouts.join(";"), escape(&self.shown.title()), self.description(), self.lines(&window),
            self.links(&window)
        )
    }

    /// What the picture shows, for who cannot see it.
    pub fn description(&self) -> String {
        let log = &self.shown.source.log;
        let each = |s: usize| format!("{}: {}", self.shown.source.names.station(s), counted(log.stations[s].len() - 1, "event"));
        let stations: Vec<String> = (0..self.stations()).map(each).collect();
        escape(&format!(
            "A line for each station with its events from left to right. {}. {}. Each listed moment is a line across all stations; \
             its table below the picture says what each was doing.",
            stations.join(", "), counted(log.messages.len(), "message")
        ))
    }
}
