//! What stands in and beside the mark of an event.
use super::text::{shortened, width};
use super::Shown;

/// Sizes of letters: of values, and of what is beside them.
const LARGE: f64 = 12.5;
const SMALL: f64 = 10.0;

/// Half the height of an event's mark, with the value alone and with the panel below it.
pub fn half_height(panels: bool) -> f64 {
    if panels { 17.0 } else { 11.5 }
}

impl Shown {
    /// The value in an event's mark.
    pub fn value_label(&self, station: usize, number: usize) -> String {
        shortened(&self.source.names.report(station, self.source.log.stations[station][number].value))
    }

    pub fn panel_label(&self, station: usize, number: usize) -> Option<String> {
        self.source.log.panels.then(|| format!("panel {}", self.source.log.stations[station][number].panel))
    }

    /// Half the width of an event's mark.
    pub fn half_width(&self, station: usize, number: usize) -> f64 {
        let value = width(&self.value_label(station, number), LARGE);
        let panel = self.panel_label(station, number).map_or(0.0, |p| width(&p, SMALL));
        (value.max(panel) / 2.0 + 8.0).ceil().max(15.0)
    }

    /// Messages of an event that never came, by whether they go up: the stub of each ends beside the mark, and one label says so for all.
    pub fn lost(&self, station: usize, number: usize, up: bool) -> usize {
        let sent = self.source.log.messages.iter().filter(|m| (m.sender, m.sent as usize, m.received) == (station, number, 0));
        sent.filter(|m| (m.receiver < station) == up).count()
    }

    pub fn lost_label(&self, count: usize) -> String {
        if count == 1 { "never came".to_string() } else { format!("{count} never came") }
    }

    /// The width that an event asks of its column.
    pub fn wanted(&self, station: usize, number: usize) -> f64 {
        let lost = [true, false].map(|up| match self.lost(station, number, up) {
            0 => 0.0,
            count => width(&self.lost_label(count), SMALL),
        });
        lost[0].max(lost[1]).max(2.0 * self.half_width(station, number))
    }
}
