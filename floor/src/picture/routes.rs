//! Arrows and messages: from which event to which, and by which way. No way crosses the mark of an event: it goes between two stations'
//! lines, and past a station in a gutter.
use super::labels::half_height;
use super::layout::Layout;
use super::path::{at, Path};
use super::slots::Slots;
use super::Shown;
use std::collections::BTreeSet;

/// A station and the number of its event.
pub type Mark = (usize, usize);

#[derive(Clone, Copy, PartialEq)]
pub enum Kind {
    /// What a clock tells and no other arrow implies.
    Clock,
    /// The message of this number.
    Message(usize),
    /// What only a chain points at, since other arrows imply it.
    Chain,
}

pub struct Route {
    pub kind: Kind,
    pub from: Mark,
    pub to: Mark,
    pub path: Path,
}

/// A message that never came: where beside its event's middle it leaves, and whether it goes up.
pub struct Stub {
    pub message: usize,
    pub port: f64,
    pub up: bool,
}

pub struct Routes {
    pub routes: Vec<Route>,
    pub stubs: Vec<Stub>,
}

/// What is to be drawn: from an event to an event, or to one that is not there, of a station.
struct Link {
    kind: Kind,
    from: Mark,
    to: Option<Mark>,
    toward: usize,
}

impl Routes {
    pub fn new(shown: &Shown, slots: &Slots, layout: &Layout) -> Routes {
        let links = links(shown);
        let ports = ports(shown, layout, &links);
        let half = half_height(shown.source.log.panels);
        let (mut routes, mut stubs): (Vec<Route>, Vec<Stub>) = (vec![], vec![]);
        for (link, [leaving, arriving]) in links.iter().zip(ports) {
            match (link.to, link.kind) {
                (Some(to), kind) => {
                    let lane = lane(to.0, routes.iter().filter(|r| r.to == to).count());
                    let path = path(slots, half, (link.from, leaving), (to, arriving), lane);
                    routes.push(Route { kind, from: link.from, to, path });
                }
                (None, Kind::Message(message)) => stubs.push(Stub { message, port: leaving, up: link.toward < link.from.0 }),
                (None, _) => {}
            }
        }
        Routes { routes, stubs }
    }

    /// The way between two events, whatever it is drawn for.
    pub fn between(&self, from: Mark, to: Mark) -> Option<&Route> {
        self.routes.iter().find(|r| (r.from, r.to) == (from, to))
    }
}

/// Messages; what clocks tell, but where a message joins the same two events; and clock entries that chains point at, but where one of
/// these does.
fn links(shown: &Shown) -> Vec<Link> {
    let log = &shown.source.log;
    let messages = log.messages.iter().enumerate().map(|(i, m)| Link {
        kind: Kind::Message(i),
        from: (m.sender, m.sent as usize),
        to: (m.received > 0).then_some((m.receiver, m.received as usize)),
        toward: m.receiver,
    });
    let mut links: Vec<Link> = messages.collect();
    let mut joined: BTreeSet<(Mark, Mark)> = links.iter().filter_map(|l| Some((l.from, l.to?))).collect();
    let mut join = |kind: Kind, from: Mark, to: Mark| {
        if joined.insert((from, to)) {
            links.push(Link { kind, from, to: Some(to), toward: to.0 });
        }
    };
    for (s, events) in log.stations.iter().enumerate() {
        for k in 1..events.len() {
            log.directly_seen(s, k).into_iter().for_each(|(j, seen)| join(Kind::Clock, (j, seen as usize), (s, k)));
        }
    }
    let clock = |(s, k): Mark| log.stations.get(s)?.get(k).map(|event| &event.clock);
    let count = |s: usize, by: Mark| clock(by).and_then(|clock| clock.get(s)).map_or(0, |&count| count as usize);
    let seen = |(s, k): Mark, by: Mark| s != by.0 && (1..=count(s, by)).contains(&k);
    let arrows = (0..shown.answers.len()).filter_map(|q| shown.marks(q)).flat_map(|marks| &marks.arrows).map(ends);
    arrows.filter(|(from, to)| seen(*from, *to)).for_each(|(from, to)| join(Kind::Chain, from, to));
    links
}

/// The events that an arrow of a chain joins.
pub fn ends(arrow: &((usize, u8), (usize, u8))) -> (Mark, Mark) {
    let ((i, k), (j, m)) = *arrow;
    ((i, k as usize), (j, m as usize))
}

/// Between two lines that leave an event on the same side, at most.
const PORT: f64 = 9.0;

/// Where beside the middle of its two events each link ends. Those at one side of an event are side by side, ordered by where they lead.
fn ports(shown: &Shown, layout: &Layout, links: &[Link]) -> Vec<[f64; 2]> {
    let mut ends: Vec<(Mark, bool, f64, usize, usize)> = vec![];
    for (i, link) in links.iter().enumerate() {
        let x = |(s, k): Mark| layout.x(s, k);
        ends.push((link.from, link.toward < link.from.0, x(link.to.unwrap_or(link.from)), i, 0));
        ends.extend(link.to.map(|to| (to, link.from.0 < to.0, x(link.from), i, 1)));
    }
    ends.sort_by(|a, b| (a.0, a.1).cmp(&(b.0, b.1)).then(a.2.total_cmp(&b.2)).then(a.3.cmp(&b.3)));
    let mut ports = vec![[0.0; 2]; links.len()];
    for side in ends.chunk_by(|a, b| (a.0, a.1) == (b.0, b.1)) {
        let (station, number) = side[0].0;
        let apart = PORT.min((2.0 * shown.half_width(station, number) - 10.0) / side.len() as f64);
        for (i, &(.., link, end)) in side.iter().enumerate() {
            ports[link][end] = (i as f64 - (side.len() - 1) as f64 / 2.0) * apart;
        }
    }
    ports
}

/// How far a line goes on upright before it bends, and how far above and below a station's mark it is upright when it passes it.
const UPRIGHT: f64 = 20.0;
const PASSING: f64 = 5.0;

/// From event to event, each with its port; past stations between them in the gutter before the second event.
fn path(slots: &Slots, half: f64, from: (Mark, f64), to: (Mark, f64), lane: f64) -> Path {
    let (((i, k), leaving), ((j, m), arriving)) = (from, to);
    let way = if i < j { 1.0 } else { -1.0 };
    let ends = |slot: usize, beside: f64, row: usize, off: f64| {
        (at(slot, beside, row, way * off), at(slot, beside, row, way * (off + UPRIGHT * off.signum())))
    };
    let (start, bent) = ends(slots.event(i, k), leaving, i, half);
    let (end, unbent) = ends(slots.event(j, m), arriving, j, -half);
    if i.abs_diff(j) == 1 {
        return Path::from(start).curve(bent, unbent, end);
    }
    let (first, last) = if i < j { (i + 1, j - 1) } else { (i - 1, j + 1) };
    let (enter, entering) = ends(slots.before(j, m), lane, first, -half - PASSING);
    let (leave, leaving) = ends(slots.before(j, m), lane, last, half + PASSING);
    Path::from(start).curve(bent, entering, enter).line(leave).curve(leaving, unbent, end)
}

/// Where in a gutter a line goes, by the station where it ends and by how many end there with the same event before it: aside from the
/// middle, where cut lines go.
fn lane(station: usize, before: usize) -> f64 {
    [7.0, -7.0, 9.5, -9.5, 12.0, -12.0][(station + before) % 6]
}
