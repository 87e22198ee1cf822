//! A made-up pair of logs merged, here and in the proved code; and where it is small, every cut of the merged log beside its two parts.
use crate::check::{counts_listed, cuts_listed, rounds, told, Counts, Reply};
use crate::fault::Refusal;
use crate::lent::Buffers;
use crate::listing;
use crate::log::{Log, OPERATIONS, STATIONS};
use crate::made;
use crate::operations::{self as here, answer_question, costs, BARS, LINE};
use crate::pairs::{Pair, NUMBERS};
use crate::tally::named;
use moment::lent as proved;

const NAMES: [&str; 41] = [
    "headers 10 and 10", "headers 10 and 11", "headers 11 and 10", "headers 11 and 11", "messages of none", "messages of the second",
    "messages of the first", "messages of both", "questions of the second", "a log with itself", "8 stations", "9 stations", "254 events",
    "255 events", "64 messages", "65 messages", "17 alone", "17 with 18", "17 with 12", "17 with 18 and 12", "18 alone", "18 with 12",
    "12 alone", "output one byte less", "output just enough", "output larger", "both at fault, the same number",
    "both at fault, two numbers", "one at fault, 9 stations or more", "cuts", "cuts with the first part not consistent",
    "cuts with the second part not consistent", "cuts with neither part consistent", "cuts past the last event", "yes", "no",
    "answers with no cut", "answers with one cut", "answers with several cuts", "start yes", "start no",
];

/// Where a refusal of one log was met: on the first, on the second, on both.
const SIDES: [&str; 3] = ["first", "second", "first, the second too"];

/// How often each was met, and each refusal of one log, by side.
pub struct Merges {
    met: [usize; NAMES.len()],
    refused: [[usize; NUMBERS.len()]; 3],
}

impl Default for Merges {
    fn default() -> Self {
        Merges { met: [0; NAMES.len()], refused: [[0; NUMBERS.len()]; 3] }
    }
}

impl Merges {
    pub fn figures(&self) -> Vec<(String, usize)> {
        named(&NAMES, &self.met)
    }

    /// The refusals of one log, by side.
    pub fn refusals(&self) -> impl Iterator<Item = (String, usize)> + '_ {
        let of = |side: usize| NUMBERS.iter().zip(self.refused[side]).map(move |(k, n)| (format!("{k} of the {}", SIDES[side]), n));
        (0..3).flat_map(of)
    }

    fn meet(&mut self, name: &str, met: bool) {
        self.add(name, met as usize);
    }

    fn add(&mut self, name: &str, n: usize) {
        let at = NAMES.iter().position(|known| *known == name).unwrap_or_else(|| panic!("{name} is not counted"));
        self.met[at] += n;
    }

    /// A log at fault, or both, and how many stations the headers say.
    fn meet_refused(&mut self, first: Option<Refusal>, second: Option<Refusal>, stations: usize) {
        let number = |r: Option<Refusal>| r.map(|Refusal(fault, _)| fault.number() as usize);
        let side = match (number(first), number(second)) {
            (Some(k), Some(m)) => {
                self.meet(if k == m { "both at fault, the same number" } else { "both at fault, two numbers" }, true);
                2
            }
            (Some(_), None) => 0,
            _ => 1,
        };
        self.meet("one at fault, 9 stations or more", side < 2 && stations > STATIONS);
        let refused = number(first).or(number(second)).and_then(|k| NUMBERS.iter().position(|n| *n == k));
        self.refused[side][refused.expect("a refusal of one log")] += 1;
    }

    /// Two accepted logs, and how many bytes were lent for the log of both.
    fn meet_accepted(&mut self, first: &Log, second: &Log, lent: usize) {
        let sum = |count: fn(&Log) -> usize| count(first) + count(second);
        let (stations, events, messages) = (sum(Log::stations), sum(|log| log.events), sum(|log| log.messages.len()));
        let (wide, many) = (stations > STATIONS, events > OPERATIONS.events || messages > OPERATIONS.messages);
        let small = lent < OPERATIONS.log;
        let name = match (wide, many, small) {
            (true, false, false) => "17 alone",
            (true, true, false) => "17 with 18",
            (true, false, true) => "17 with 12",
            (true, true, true) => "17 with 18 and 12",
            (false, true, false) => "18 alone",
            (false, true, true) => "18 with 12",
            (false, false, true) => "12 alone",
            _ => return self.meet_merged(first, second, lent),
        };
        self.meet(name, true);
        self.meet("9 stations", stations == STATIONS + 1);
        self.meet("255 events", !wide && events == OPERATIONS.events + 1);
        self.meet("65 messages", !wide && messages == OPERATIONS.messages + 1);
        self.meet("output one byte less", name == "12 alone" && lent + 1 == OPERATIONS.log);
    }

    fn meet_merged(&mut self, first: &Log, second: &Log, lent: usize) {
        let sent = [first, second].map(|log| !log.messages.is_empty() as usize);
        self.met[2 * first.panels as usize + second.panels as usize] += 1;
        self.met[4 + 2 * sent[0] + sent[1]] += 1;
        self.meet("questions of the second", !second.questions.is_empty());
        self.meet("8 stations", first.stations() + second.stations() == STATIONS);
        self.meet("254 events", first.events + second.events == OPERATIONS.events);
        self.meet("64 messages", first.messages.len() + second.messages.len() == OPERATIONS.messages);
        self.meet("output just enough", lent == OPERATIONS.log);
        self.meet("output larger", lent > OPERATIONS.log);
    }
}

/// A log, and what is lent to ask it one of its questions.
struct Asked<'a> {
    data: &'a [u8],
    log: &'a Log,
    question: usize,
    workspace: Vec<u8>,
    bars: [u8; BARS],
}

impl<'a> Asked<'a> {
    fn new(data: &'a [u8], log: &'a Log, question: usize) -> Self {
        Asked { data, log, question, workspace: vec![0; costs(log, &log.questions[question])[3]], bars: [0; BARS] }
    }

    fn holds(&mut self, cut: &[u8]) -> Reply<bool> {
        told(proved::holds(self.data, self.question, cut, &mut self.workspace, &mut self.bars), |yes| yes)
    }

    fn answer(&mut self) -> Vec<u8> {
        let mut out = [0; LINE];
        let n = proved::answer(self.data, self.question, &mut self.workspace, &mut self.bars, &mut out).expect("an answer");
        assert_eq!(out[..n], answer_question(self.log, &self.log.questions[self.question]), "the merged log's answer: proved and here");
        out[..n].to_vec()
    }
}

/// Two accepted logs and the one of both.
struct Merged<'a> {
    first: &'a Log,
    second: &'a Log,
    whole: &'a Log,
    counts: &'a mut Merges,
}

impl Merged<'_> {
    /// The answer to a question: the start and the cuts of the first log's, each with all events of the second behind it.
    fn answers(&mut self, first: &mut Asked, whole: &mut Asked) {
        let [one, both] = [first.answer(), whole.answer()];
        let last: Vec<usize> = self.second.history.iter().map(|h| h.len() - 1).collect();
        let cuts: Vec<usize> = counts_listed(&one).collect();
        let expected: Vec<usize> = cuts.chunks(self.first.stations()).flat_map(|c| [c, &last].concat()).collect();
        assert_eq!(both[..6], one[..6], "kind, start and number of cuts");
        assert_eq!(counts_listed(&both).collect::<Vec<usize>>(), expected, "the cuts listed");
        assert!(rounds(&both) >= rounds(&one), "fewer rounds than the first log takes");
        let listed = ["answers with no cut", "answers with one cut", "answers with several cuts"][cuts_listed(&one).min(2)];
        self.counts.meet(listed, true);
        self.counts.meet(if &one[2..4] == b"01" { "start yes" } else { "start no" }, true);
    }

    /// Every cut: 13 exactly if a part is not consistent, and else what is so at the first part.
    fn cuts(&mut self, first: &mut Asked, whole: &mut Asked) {
        let n = self.first.stations();
        let at_first: Vec<Reply<bool>> = listing::all(self.first).iter().map(|c| first.holds(&c[..n])).collect();
        let seconds: Vec<bool> = listing::all(self.second).iter().map(|c| self.second.cut(&c[..self.second.stations()]).is_ok()).collect();
        let all = listing::all(self.whole);
        for (c, (part, second)) in all.iter().zip(at_first.iter().flat_map(|part| seconds.iter().map(move |second| (part, second)))) {
            let expected = if *second { *part } else { Err((13, 0)) };
            assert_eq!(whole.holds(&c[..self.whole.stations()]), expected, "at {c:?}, whose parts are so: {part:?} and {second}");
            let name = match (part, second) {
                (Ok(yes), true) => if *yes { "yes" } else { "no" },
                (Ok(_), false) => "cuts with the second part not consistent",
                (Err(_), true) => "cuts with the first part not consistent",
                _ => "cuts with neither part consistent",
            };
            self.counts.meet(name, true);
        }
        self.counts.add("cuts", all.len());
        self.past(whole);
    }

    /// All events, and one more of each station in turn.
    fn past(&mut self, whole: &mut Asked) {
        let mut c: Vec<u8> = self.whole.history.iter().map(|h| (h.len() - 1) as u8).collect();
        for j in 0..c.len() {
            c[j] += 1;
            assert_eq!(whole.holds(&c), Err((13, 0)), "at {c:?}, past the last event");
            c[j] -= 1;
        }
        self.counts.add("cuts past the last event", c.len());
    }
}

/// The log of both, as Read has it, and what its questions come to.
fn asked(data: &[u8], first: &Log, second: &Log, merged: &[u8], counts: &mut Merges) {
    let frames = here::merged(first, second);
    assert_eq!(moment::frames(merged).as_ref(), Ok(&frames), "the frames of the merged log");
    let whole = Log::from_list(OPERATIONS, &made::list(&frames)).expect("a list that is accepted");
    if listing::count(&whole) > 400 {
        return;
    }
    let mut both = Merged { first, second, whole: &whole, counts };
    for q in 0..first.questions.len() {
        let (mut one, mut all) = (Asked::new(data, first, q), Asked::new(merged, &whole, q));
        both.answers(&mut one, &mut all);
        both.cuts(&mut one, &mut all);
    }
}

/// The stations of a header that is in order, by its first digits.
fn stations(log: &[u8]) -> usize {
    match log {
        [b'1', b'0' | b'1', b'0', n @ b'1'..=b'8', ..] => (n - b'0') as usize,
        _ => 0,
    }
}

/// One pair through Merge, with an output of just the size that is asked for, or of any.
pub fn compare(pair: Pair, lent: &mut Buffers, counts: &mut Counts) {
    let Pair { first: data, second: more, draw: mut d } = pair;
    lent.fill(&mut d);
    let (out, exact) = (&mut lent.lines, d.below(2) == 0);
    out.lend(&mut d, exact);
    let reply = told(proved::merge(&data, &more, out.part()), |n| n);
    let here = here::merge(&data, &more, out.part_before());
    counts.same("Merge", data.starts_with(b"11"), &reply, here);
    out.same("Merge's output");
    counts.layer.meet_pair(&data, &more);
    let (size, merged) = (out.size, reply.map_or(vec![], |n| out.part()[..n].to_vec()));
    match (Log::read(OPERATIONS, &data), Log::read(OPERATIONS, &more)) {
        (Ok(first), Ok(second)) => {
            counts.merges.meet_accepted(&first, &second, size);
            counts.merges.meet("a log with itself", data == more && reply.is_ok());
            if reply.is_ok() {
                asked(&data, &first, &second, &merged, &mut counts.merges);
            }
        }
        (first, second) => {
            assert!(here.is_err_and(|Refusal(fault, _)| fault.number() < 17 && fault.number() != 12), "a log's own refusal comes first");
            counts.merges.meet_refused(first.err(), second.err(), stations(&data) + stations(&more));
        }
    }
}
