//! One made-up log through all operations but Merge, here and in the proved code.
use crate::basis::Worker;
use crate::clears::Clears;
use crate::draw::Draw;
use crate::ends;
use crate::fault::{Refusal, KINDS};
use crate::fields::Fields;
use crate::formula::{self, placed, Token, Tokens};
use crate::large;
use crate::layer::Layer;
use crate::lent::Buffers;
use crate::listing;
use crate::log::{Log, OPERATIONS, PROGRAM, STATIONS};
use crate::made::{self, Shape};
use crate::merges::Merges;
use crate::messages;
use crate::operations::{self as here, answer_line, costs, Costs, BARS, WORKSPACE};
use crate::panels;
use crate::peak::{Peak, Peaks};
use crate::ranges::Ranges;
use crate::sides::{Side, Sides, FIXED_CELLS};
use crate::silences::Silences;
use crate::silent;
use moment::lent as proved;
use std::fmt::Debug;

/// What a seed gives: a log and a frame list, and the draws that follow.
pub struct Case {
    pub log: Vec<u8>,
    pub list: Vec<u8>,
    draw: Draw,
}

fn shape(d: &mut Draw) -> Shape {
    let (stations, events, questions, ranges) = match d.below(12) {
        0 => (1 + d.below(8), d.pick(&[60, 100, 126, 127, 127, 128]), d.pick(&[0, 0, 1, 2, 8, 16]), 6),
        1 => (1 + d.below(8), d.below(40), d.below(6), 8),
        _ => (1 + d.below(4), d.below(9), d.below(4), 1 + d.below(6)),
    };
    Shape { stations, events, questions, ranges, step: d.pick(&[1, 1, 255, 21845]), zero: d.pick(&[0, 2, 4]) }
}

/// Frames of any shape, damaged or not.
fn drawn(d: &mut Draw) -> Vec<Vec<u8>> {
    let s = shape(d);
    let mut fs = made::frames(d, s);
    for _ in 0..d.pick(&[0, 0, 0, 1, 1, 2]) {
        if !fs.is_empty() {
            made::damage(d, s, &mut fs);
        }
    }
    fs
}

/// Frames without panels, large or not, with messages or without.
fn plain(d: &mut Draw, sort: usize, sent: bool) -> Vec<Vec<u8>> {
    match sort {
        0 => large::frames(d),
        2 if sent => messages::large_frames(d),
        _ if sent => messages::frames(d),
        _ if d.below(50) == 0 => ends::frames(d),
        _ => drawn(d),
    }
}

impl Case {
    pub fn new(seed: u64) -> Self {
        let mut draw = Draw(seed);
        let d = &mut draw;
        // Whether the log is large, too long or neither, and whether it has messages, panels or silent stations, is drawn apart, so that
        // others do not depend on it.
        let (sort, panels) = (Draw(!seed).below(26), Draw(seed.rotate_left(16)).below(7) < 2);
        let sent = Draw(seed.rotate_left(32)).below(4) < if panels { 2 } else { 1 };
        let mut fs = plain(d, sort, sent);
        if panels {
            fs = panels::frames(d, fs);
        }
        if Draw(seed.rotate_left(48)).below(10) == 0 {
            silent::give(d, &mut fs);
        }
        let (mut log, mut list) = (made::lines(&fs), made::list(&fs));
        let limits = if sort < 2 { OPERATIONS } else { PROGRAM };
        for (most, bytes) in [(limits.log, &mut log), (limits.list, &mut list)] {
            match d.below(6) {
                again if sort == 1 => made::stretch(d, most, bytes, again < 3),
                0 => made::spoil(d, most, bytes),
                _ => {}
            }
        }
        Case { log, list, draw }
    }
}

/// What is lent: just what is asked for; of the workspace one cell less than that; or sizes about what is asked for.
#[derive(Clone, Copy, PartialEq)]
enum Lends {
    Just,
    OneLess,
    About,
}

use Lends::*;

/// What was seen: calls, accepted logs, Holds' no and yes, answers that list no, one and several cuts, workspaces refused for one cell
/// less than forecast and accepted with just these cells, each fault, without a header of kind 11 and with one, peaks, sides of limits,
/// ends of ranges, tokens 07 and 08, silent stations, and by their stations the accepted logs of more events than the program takes, and
/// those with a header of kind 11; and apart from all these, what the safe layer said, and what was met of pairs.
pub struct Counts {
    pub calls: usize,
    pub accepted: usize,
    pub holds: [usize; 2],
    pub answers: [usize; 3],
    pub limit: [usize; 2],
    pub faults: [[usize; KINDS]; 2],
    pub peaks: Peaks,
    pub sides: Sides,
    pub ranges: Ranges,
    pub clears: Clears,
    pub fields: Fields,
    pub silences: Silences,
    pub large: [usize; STATIONS],
    pub panels: [usize; STATIONS],
    pub layer: Layer,
    pub merges: Merges,
}

impl Counts {
    pub fn new() -> Self {
        let (peaks, sides, ranges) = (Peaks::default(), Sides::default(), Ranges::default());
        let (clears, fields, silences) = (Clears::default(), Fields::default(), Silences::default());
        let (holds, answers, limit, faults, large, panels) = ([0; 2], [0; 3], [0; 2], [[0; KINDS]; 2], [0; STATIONS], [0; STATIONS]);
        Counts {
            calls: 0, accepted: 0, holds, answers, limit, faults, peaks, sides, ranges, clears, fields, silences, large, panels,
            layer: Layer::default(), merges: Merges::default(),
        }
    }

    fn meet_log(&mut self, log: &Log, bytes: usize) {
        let station = log.history.iter().map(|h| h.len() - 1).max().unwrap_or(0);
        self.accepted += 1;
        let large = log.events > PROGRAM.events;
        self.large[log.stations() - 1] += large as usize;
        self.panels[log.stations() - 1] += log.panels as usize;
        self.silences.meet_log(log);
        let program = |figure: usize| if large { 0 } else { figure };
        self.peaks.meet(&[
            (Peak::Stations, log.stations()), (Peak::Events, log.events), (Peak::StationEvents, station),
            (Peak::Messages, log.messages.len()), (Peak::Questions, log.questions.len()), (Peak::LogBytes, bytes),
            (Peak::ListBytes, log.list.len()), (Peak::ProgramLogBytes, program(bytes)), (Peak::ProgramListBytes, program(log.list.len())),
        ]);
    }

    fn meet_question(&mut self, f: &[Token], [width, bars, held, cells, ceiling]: Costs, w: &Worker, listed: usize) {
        self.peaks.meet(&[
            (Peak::Tokens, f.len()), (Peak::Atoms, formula::atoms(f)[0]), (Peak::Width, width), (Peak::BarCount, bars),
            (Peak::Held, held), (Peak::Cells, cells), (Peak::Ceiling, ceiling), (Peak::Standing, w.most.standing),
            (Peak::Structures, w.most.structures), (Peak::Bars, w.most.bars), (Peak::RightBars, w.most.right),
            (Peak::StartRounds, w.most.rounds as usize), (Peak::Rounds, w.rounds as usize), (Peak::Listed, listed),
            (Peak::Passes, w.most.passes),
        ]);
    }

    /// Both replies are equal, to a log or frame list that has a header of kind 11 or not.
    pub fn same<T: PartialEq + Debug>(&mut self, what: &str, panels: bool, proved: &Reply<T>, here: Result<T, Refusal>) {
        self.calls += 1;
        if let Err(Refusal(fault, _)) = here {
            self.faults[panels as usize][fault as usize] += 1;
        }
        assert_eq!(*proved, here.map_err(|Refusal(fault, line)| (fault.number(), line)), "{what}: proved and here");
    }
}

/// Values, or a refusal's number and line.
pub type Reply<T> = Result<T, (u8, u32)>;

pub fn told<T, V>(reply: Result<T, moment::Refusal>, values: impl FnOnce(T) -> V) -> Reply<V> {
    reply.map(values).map_err(|refusal| (refusal.number, refusal.line))
}

fn number(digits: &[u8]) -> usize {
    digits.iter().fold(0, |n, &b| n * 16 + (b as char).to_digit(16).expect("a digit") as usize)
}

/// How many cuts an answer line lists.
pub fn cuts_listed(line: &[u8]) -> usize {
    number(&line[4..6])
}

/// The counts of the cuts that it lists.
pub fn counts_listed(line: &[u8]) -> impl Iterator<Item = usize> + '_ {
    line[6..line.len() - 11].chunks(2).map(number)
}

/// The rounds of an answer line, the four bytes before its check byte.
pub fn rounds(line: &[u8]) -> usize {
    number(&line[line.len() - 11..line.len() - 3])
}

/// Nothing is above the forecast: listed cuts, bars of a structure, structures that stood at a time, rounds.
fn foretold([width, bars, held, _, ceiling]: Costs, line: &[u8], w: &Worker) {
    let met = [cuts_listed(line), w.most.bars, w.most.standing, rounds(line)];
    assert!(met.iter().zip([width, bars, held, ceiling]).all(|(m, most)| *m <= most), "{met:?} above the forecast");
}

/// The calls on one log, whether its first frame is of kind 11, the cells forecast for its questions, and what is lent.
struct Calls<'a> {
    log: &'a [u8],
    panels: bool,
    cells: Vec<usize>,
    draw: Draw,
    lent: &'a mut Buffers,
    counts: &'a mut Counts,
}

impl Calls<'_> {
    fn read(&mut self) {
        let out = &mut self.lent.list;
        out.lend(&mut self.draw, false);
        let reply = told(proved::read(self.log, out.part()), |r| [r.stations, r.events, r.questions, r.list]);
        let here = here::read(self.log, out.part_before());
        self.counts.sides.meet_read(self.log, out.size, &here);
        self.counts.same("Read", self.panels, &reply, here);
        out.same("Read's output");
    }

    fn write(&mut self, list: &[u8]) {
        let out = &mut self.lent.lines;
        out.lend(&mut self.draw, false);
        let reply = told(proved::write(list, out.part()), |n| n);
        let here = here::write(list, out.part_before());
        self.counts.sides.meet_write(list, out.size, &here);
        self.counts.same("Write", list.get(1) == Some(&0x11), &reply, here);
        out.same("Write's output");
    }

    /// The workspace of a question that is not there is asked for as if it took all cells.
    fn lend_room(&mut self, q: usize, lends: Lends) {
        let cells = self.cells.get(q).copied().unwrap_or(WORKSPACE);
        self.lent.ws.asked = cells - (lends == OneLess) as usize;
        self.lent.ws.lend(&mut self.draw, lends != About);
        self.lent.bs.lend(&mut self.draw, lends != About);
    }

    /// Workspace and bar space may hold anything after an accepted call, and are as lent after a refusal.
    fn check_room(&mut self, q: usize, refused: Option<(u8, u32)>) {
        for b in [&mut self.lent.ws, &mut self.lent.bs] {
            if refused.is_none() {
                b.take_over();
            }
            b.same("workspace or bar space");
        }
        let (cells, lent) = (self.cells.get(q).copied(), self.lent.ws.size);
        let one_less = refused == Some((11, 0)) && self.lent.bs.size >= BARS && cells == Some(lent + 1);
        let just = refused.is_none() && cells == Some(lent);
        self.counts.limit[0] += one_less as usize;
        self.counts.limit[1] += just as usize;
        self.counts.sides.meet(Side::CellsUnder, one_less && lent >= FIXED_CELLS);
        self.counts.sides.meet(Side::Cells, just && lent > FIXED_CELLS);
    }

    fn forecast(&mut self, q: usize) -> Option<Costs> {
        let reply = told(proved::forecast(self.log, q), |f| [f.width, f.bars, f.held, f.cells, f.ceiling]);
        self.counts.same("Forecast", self.panels, &reply, here::forecast(self.log, q));
        reply.ok()
    }

    /// The line, if the question is answered.
    fn answer(&mut self, q: usize, lends: Lends) -> Option<Vec<u8>> {
        self.lend_room(q, lends);
        let Buffers { line: out, ws, bs, .. } = &mut *self.lent;
        out.lend(&mut self.draw, lends != About);
        let reply = told(proved::answer(self.log, q, ws.part(), bs.part(), out.part()), |n| n);
        let here = here::answer(self.log, q, ws.size, bs.size, out.part_before());
        self.counts.same("Answer", self.panels, &reply, here);
        out.same("Answer's output");
        self.check_room(q, reply.err());
        reply.ok().map(|n| {
            let line = self.lent.line.part()[..n].to_vec();
            self.counts.answers[cuts_listed(&line).min(2)] += 1;
            self.counts.sides.meet(Side::CountListed, counts_listed(&line).any(|k| k == OPERATIONS.events));
            line
        })
    }

    fn holds(&mut self, q: usize, cut: &[u8], lends: Lends) -> Option<bool> {
        self.lend_room(q, lends);
        let Buffers { ws, bs, .. } = &mut *self.lent;
        let reply = told(proved::holds(self.log, q, cut, ws.part(), bs.part()), |yes| yes);
        let here = here::holds(self.log, q, cut, ws.size, bs.size);
        self.counts.same("Holds", self.panels, &reply, here);
        self.check_room(q, reply.err());
        reply.ok().inspect(|yes| self.counts.holds[*yes as usize] += 1)
    }

    /// Calls with a question number, sizes and a cut that may be wrong.
    fn odd(&mut self, questions: usize, stations: usize) {
        let d = &mut self.draw;
        let q = if d.below(4) == 0 { d.pick(&[questions, 255, 256, usize::MAX]) } else { d.below(questions + 1) };
        let bytes = d.pick(&[0, stations, stations, stations, stations + 1]);
        let cut: Vec<u8> = (0..bytes).map(|_| d.pick(&[0, 0, 0, 1, 1, 2, 128, 254, 255])).collect();
        self.forecast(q);
        self.answer(q, About);
        self.holds(q, &cut, About);
    }

    /// One question with one cell less than is forecast for it.
    fn refused(&mut self, q: usize, stations: usize) {
        let (line, truth) = (self.answer(q, OneLess), self.holds(q, &[0; 8][..stations], OneLess));
        assert!(line.is_none() && truth.is_none(), "question {q}: answered with one cell less than forecast");
    }

    /// One question at every cut, against the plain listing; the rounds are those of the independent implementation.
    /// Where they are many, or the log is large, Holds is asked at one cut in so many.
    fn listed(&mut self, log: &Log, q: usize, line: &[u8], rounds: u32) {
        let (f, n) = (&log.questions[q][..], log.stations());
        let cuts = listing::consistent(log);
        let truth = listing::truth(log, &cuts, &mut Tokens(f));
        let expected = answer_line(truth[0], &listing::maximal(&cuts, &truth), n, rounds);
        assert_eq!(line, expected, "question {q}: proved and listed");
        self.counts.silences.meet_listed(log, f, &cuts, &truth);
        let work = rounds as usize + if log.events > PROGRAM.events { 30_000 } else { 0 };
        let (all, step) = (listing::all(log), 1 + work * cuts.len() / 400_000);
        for c in all.into_iter().skip(self.draw.below(step)).step_by(step) {
            let expected = cuts.binary_search(&c).ok().map(|i| truth[i]);
            assert_eq!(self.holds(q, &c[..n], Just), expected, "question {q} at {c:?}: proved and listed");
        }
    }

    /// One question at joins of some events' clocks.
    fn sampled(&mut self, log: &Log, q: usize) {
        let mut c = [0u8; 8];
        for _ in 0..4 {
            let events = &log.history[self.draw.below(log.stations())];
            let clock = self.draw.pick(events).clock;
            c.iter_mut().zip(clock).for_each(|(x, y)| *x = (*x).max(y));
            self.holds(q, &c[..log.stations()], Just);
        }
    }

    /// One question at the greatest cut, and at one with an event more than the station of most events has.
    fn ended(&mut self, log: &Log, q: usize) {
        let mut c: Vec<u8> = log.history.iter().map(|h| (h.len() - 1) as u8).collect();
        let (truth, most) = (self.holds(q, &c, Just), c.iter_mut().max().expect("a station"));
        *most += 1;
        let over = *most as usize > OPERATIONS.events;
        assert!(truth.is_some() && self.holds(q, &c, Just).is_none(), "question {q}: at the greatest cut and past it");
        [Side::CountHeld, Side::CountOver].into_iter().for_each(|side| self.counts.sides.meet(side, over));
    }
}

/// One case through all operations on one log: every question, or of a large log a few, and for a small log every cut.
pub fn compare(case: Case, lent: &mut Buffers, counts: &mut Counts) {
    let Case { log: data, list, mut draw } = case;
    lent.fill(&mut draw);
    let mut calls = Calls { log: &data, panels: data.starts_with(b"11"), cells: vec![], draw, lent, counts };
    calls.read();
    calls.write(&list);
    let read = Log::read(OPERATIONS, &data);
    calls.counts.layer.meet_log(&data, &read);
    calls.counts.layer.meet_list(&list);
    let Ok(log) = read else { return calls.odd(3, 3) };
    calls.counts.meet_log(&log, data.len());
    calls.cells = log.questions.iter().map(|f| costs(&log, f)[3]).collect();
    calls.odd(log.questions.len(), log.stations());
    let (step, mut first) = (if log.events > PROGRAM.events { 1 + log.questions.len() / 4 } else { 1 }, true);
    for (q, f) in log.questions.iter().enumerate().skip(calls.draw.below(step)).step_by(step) {
        let costs = calls.forecast(q).expect("a forecast");
        calls.refused(q, log.stations());
        let line = calls.answer(q, Just).expect("an answer");
        let mut worker = Worker::new(&log);
        let basis = worker.basis(&mut Tokens(f), true);
        if std::mem::take(&mut first) {
            calls.counts.layer.meet_question(&data, &log, q, &worker, &basis);
        }
        foretold(costs, &line, &worker);
        calls.counts.meet_question(f, costs, &worker, cuts_listed(&line));
        let atoms = placed(f);
        atoms.iter().for_each(|p| calls.counts.ranges.meet(&log, p));
        calls.counts.clears.meet(&log, &atoms, &worker);
        calls.counts.fields.meet(&log, f, &atoms, &line);
        calls.counts.silences.meet(&log, f, &atoms, &line);
        if listing::count(&log) <= 400 {
            calls.listed(&log, q, &line, worker.rounds);
        } else {
            calls.sampled(&log, q);
        }
        calls.ended(&log, q);
    }
}
