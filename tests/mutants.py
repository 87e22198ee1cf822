#!/usr/bin/env python3
"""Tries wrong rules in the independent implementation, and reports how many logs of the corpus, or pairs of logs, tell each apart.

Usage: mutants.py      from the repository's root; exit code 1 if fewer than ten of them tell a rule apart
"""
import pathlib
import re
import subprocess
import sys
import tempfile
from itertools import pairwise

from frames import parted

LEAST = 10
CASES, SOURCE = pathlib.Path("crates/cases"), pathlib.Path("tests/compare/src")
PARTS = ["fault", "formula", "log", "basis", "operations"]

# What is edited often: the limits, whether an event is one of those that a range wants, whether a value is silent, an event taken in.
EVENTS = "if self.events == self.limits.events {"
MESSAGES = "if self.messages.len() == self.limits.messages {"
TESTED = "tested(field, lo, hi, e.field(field)) == wanted"
SILENCE = "if field == Field::Value && v == SILENT {"
REPLY = "return Said::Silent;"
TAKEN = "        self.history[s].push(Event::new(fields, clock));\n"
# And of two logs: what they are too many of, the test of the output behind it, and a message of the second.
WIDE, SENT = "if first.stations() + second.stations() > STATIONS {", "first.messages.len() + second.messages.len() > OPERATIONS.messages"
TOGETHER = "    together(&first, &second)?;\n    if out.len() < OPERATIONS.log {"
NUMBERED_ON = "vec![0x25, on(sender), sent, on(receiver), received]"


def counted(mark):
    """Silence is taken for what is looked for below tokens that are marked, by the token, its sign and the mark above it."""
    return {
        "        match (f.take(), sign) {\n            (Token::Range { field,":
            "        use std::sync::atomic::{AtomicBool, Ordering::Relaxed};\n"
            "        static MARK: AtomicBool = AtomicBool::new(false);\n"
            "        let (token, above) = (f.take(), MARK.load(Relaxed));\n"
            f"        let mark = match token {{ {mark}, _ => above }};\n"
            "        MARK.store(mark, Relaxed);\n"
            "        match (token, sign) {\n            (Token::Range { field,",
        TESTED: f"{TESTED} || mark && {TESTED.replace('wanted', 'Said::Silent')}",
        "        self.stand(out.len());\n": "        MARK.store(above, Relaxed);\n        self.stand(out.len());\n",
    }


# A wrong rule, and the texts in bodies of functions that it puts in place of others.
RULES = {
    "one round a start": {"            c = d;\n": "            return (d, rounds);\n"},
    "right set first": {"self.raise(left, &c)": "self.raise(right, &c)", "self.raise(right, &d)": "self.raise(left, &d)"},
    "dropped by each bar": {"!self.bars.is_empty() && {": "{", "self.bars.iter().any(": "self.bars.iter().all("},
    "dropped by all bars only": {"self.bars.iter().any(": "self.bars.iter().all("},
    "never dropped by a bar": {"self.bars.iter().any(|b| contained(&top, b))": "false"},
    "last round uncounted": {"return (d, rounds);": "return (d, rounds - (d == c) as u32);"},
    "early stop after an empty start": {"            self.rounds += rounds;\n": "            self.rounds += rounds;\n            if rows[0] == NONE {\n                break;\n            }\n"},
    "right operand skipped": {
        "let (left, right) = self.operands(f, sign);\n": "let left = self.basis(f, sign);\nlet rounds = self.rounds;\nlet right = self.basis(f, sign);\nif left.is_empty() { self.rounds = rounds }"
    },
    "unsorted": {"        all.sort_unstable();\n        all.dedup();\n": "        let mut seen = Vec::new();\n        all.retain(|c| !seen.contains(c) && { seen.push(*c); true });\n"},
    "duplicates kept": {"        all.dedup();\n": "", "k != i && contained": "all[k] != all[i] && contained"},
    "contained cuts listed": {"k != i && contained(&all[i], &all[k])": "false"},
    "possibly strictly later": {"if contained(start, &top) {": "if contained(start, &top) && *start != top {"},
    "round that came to none uncounted": {"return (NONE, rounds);": "return (NONE, rounds - 1);", "return (d, rounds);": "return (d, rounds - (d[0] == 255) as u32);"},
    "every start from the empty cut": {"&right.rows, self.starts[i]);": "&right.rows, self.starts[0]);"},
    "the smaller count in a join": {"*x = (*x).max(*y);": "*x = (*x).min(*y);"},
    "bars of the left side alone": {"left.bars.iter().chain(&right.bars).copied()": "left.bars.iter().copied()"},
    "bars lost in not possibly": {"let bars: Vec<Cut> = self.basis(f, !sign).iter().map(": "let bars: Vec<Cut> = self.basis(f, !sign).iter().take(0).map("},
    "bars kept in possibly": {"        s.bars.clear();\n": ""},
    "range as true under not": {"if sign { Said::Inside }": "if true { Said::Inside }"},
    "bars not looked at by the start": {" && !s.bars.iter().any(|b| contained(c, b))": ""},
    "hi left out": {"return lo <= v && v <= hi;": "return lo <= v && (v < hi || lo == hi && v == lo);"},
    "range through zero empty": {"    lo <= v || v <= hi\n": "    false\n"},
    "range through zero from lo alone": {"    lo <= v || v <= hi\n": "    lo <= v\n"},
    "range through zero up to hi alone": {"    lo <= v || v <= hi\n": "    v <= hi\n"},
    "lo in the negation through zero": {"    lo <= v || v <= hi\n": "    lo < v || v <= hi\n"},
    "hi in the negation through zero": {"    lo <= v || v <= hi\n": "    lo <= v || v < hi\n"},
    "lo above hi refused": {"if station >= stations {": "if station >= stations || lo > hi {"},
    "lo one above hi refused": {"if station >= stations {": "if station >= stations || lo > hi && lo - hi == 1 {"},
    "lo equal to hi refused": {"if station >= stations {": "if station >= stations || lo == hi {"},
    "bytes after the formula": {"if q.is_empty() { Ok(tokens)": "if true { Ok(tokens)"},
    "line of 101 bytes": {
        "digits.len() > 200": "digits.len() > 202",
        "    if sum == 0 {": "    if let [_, _, ..] = digits[digits.len().min(200)..] {\n        sum = sum.wrapping_add(digit(digits[200])? * 16 + digit(digits[201])?);\n    }\n    if sum == 0 {",
    },
    "line one too low": {"log.admit(f)).map_err(|fault| Refusal(fault, i as u32 + 1))?": "log.admit(f)).map_err(|fault| Refusal(fault, i as u32))?"},
    "width of and adds": {"joined(l, r, l.width * r.width, l.bars + r.bars)": "joined(l, r, l.width + r.width, l.bars + r.bars)"},
    "width 17 accepted": {"if s.width > 16 {": "if s.width > 17 {"},
    "bars of and not added": {"joined(l, r, l.width * r.width, l.bars + r.bars)": "joined(l, r, l.width * r.width, l.bars.max(r.bars))"},
    "own predecessor not looked at": {"(j == s) as usize;\n": "(j == s) as usize;\n            if j == s { continue }\n"},
    "a header of 9 stations": {"if n > STATIONS {": "if n > STATIONS + 1 {"},
    "a header of no station": {"if n < 1 {": "if false {"},
    "15 cuts listed at most": {"cuts.len() as u8]": "cuts.len().min(15) as u8]", "cuts.iter().for_each(|c| f": "cuts.iter().take(15).for_each(|c| f"},
    "15 structures at most": {"        out.retain(|s| !s.dropped());\n": "        out.retain(|s| !s.dropped());\n        out.truncate(15);\n"},
    "15 bars at most": {"let bars: Vec<Cut> = self.basis(f, !sign).iter().map(": "let bars: Vec<Cut> = self.basis(f, !sign).iter().take(15).map("},
    "15 bars of the right side at most": {".chain(&right.bars)": ".chain(right.bars.iter().take(15))"},
    "64 rounds a start at most": {"            c = d;\n": "            if rounds == 64 {\n                return (d, rounds);\n            }\n            c = d;\n"},
    "rounds of 14 bits": {"rounds.to_be_bytes()": "(rounds % 16384).to_be_bytes()"},
    "rounds of two bytes": {"rounds.to_be_bytes()": "(rounds % 65536).to_be_bytes()"},
    "held without the result's width": {".max(l.width + r.width + width);": ".max(l.width + r.width);"},
    "held without the left's width": {".max(l.width + r.held)": ".max(r.held)"},
    "held without the left's figure": {"l.held.max(l.width + r.held)": "(l.width + r.held)"},
    "held with the left's figure twice": {".max(l.width + r.held)": ".max(l.held + r.held)"},
    "held of the operand under possibly": {"held: p.held.max(p.width + width)": "held: p.held"},
    "not possibly holds its bars": {"lifted(p, 1, p.width)": "Size { held: p.held.max(2 * p.width), ..lifted(p, 1, p.width) }"},
    "largest bars those of the whole": {"most: bars.max(l.most).max(r.most)": "most: bars", "most: bars.max(p.most)": "most: bars"},
    "ceiling takes or for and": {
        "products: both.products + l.width * r.width, ..both": "..both",
        "joined(l, r, l.width + r.width, l.bars.max(r.bars))":
            "Size { products: l.products + r.products + l.width * r.width, ..joined(l, r, l.width + r.width, l.bars.max(r.bars)) }",
    },
    "ceiling of the last and alone": {"products: both.products + l.width * r.width": "products: l.width * r.width"},
    "ceiling of both widths added": {"products: both.products + l.width * r.width": "products: both.products + l.width + r.width"},
    "ceiling without the empty start": {"s.products * starts * starts": "s.products * starts * log.events"},
    "cells without the least cut": {"s.held * log.stations() * starts,": "s.held * log.stations() * log.events,"},
    "cells of eight stations": {"s.held * log.stations() * starts,": "s.held * 8 * starts,"},
    "cells of one structure less": {"s.held * log.stations() * starts,": "(s.held - 1) * log.stations() * starts,"},
    "just the cells refused": {"if workspace < cells {": "if workspace <= cells {"},
    "one cell less accepted": {"if workspace < cells {": "if workspace + 1 < cells {"},
    "program with the operations' limits": {"Log::read(PROGRAM, data)": "Log::read(OPERATIONS, data)"},
    "operations with the program's events": {EVENTS: "if self.events == 127 {"},
    "255th event accepted": {EVENTS: "if self.events == if self.limits.events == 254 { 255 } else { 127 } {"},
    "254th event refused": {EVENTS: "if self.events == self.limits.events.min(253) {"},
    "count of 254 taken for none": {
        "self.rows[0][0] == 255": "self.rows[0][0] >= 254",
        "r[0] != 255": "r[0] < 254",
        "if d[0] == 255 {": "if d[0] >= 254 {",
        "if d[0] == 255 ||": "if d[0] >= 254 ||",
    },
    "cells of 127 events at most": {"s.held * log.stations() * starts,": "s.held * log.stations() * starts.min(128),"},
    "lower case digits": {"b'A'..=b'F' =>": "b'a'..=b'f' => Ok(b - b'a' + 10),\n        b'A'..=b'F' =>"},
    "never received taken for received": {"if messages.iter().any(|m| m.received == 0 && m.sent <= c[m.sender]) { NONE } else { c }": "c"},
    "received in one pass": {"let last = c == *row || c == NONE;": "let last = true;"},
    "what was due at the start received": {
        "let last = c == *row || c == NONE;": "let last = true;",
        "if m.sent <= c[m.sender] && c[m.receiver] < m.received {": "if m.sent <= at[m.sender] && at[m.receiver] < m.received {",
        "for m in messages.iter().filter(|m| m.received > 0) {": "let at = c;\n        for m in messages.iter().filter(|m| m.received > 0) {",
    },
    "received one event early": {"c[m.receiver] < m.received {": "c[m.receiver] + 1 < m.received {"},
    "received with the event before": {"[m.received as usize].clock": "[m.received as usize - 1].clock"},
    "received with the event after": {"[m.received as usize].clock": "[(m.received as usize + 1).min(self.log.history[m.receiver].len() - 1)].clock"},
    "on the way after its sending alone": {
        "if m.sent <= c[m.sender] && c[m.receiver]": "if m.sent < c[m.sender] && c[m.receiver]",
        "m.received == 0 && m.sent <= c[m.sender]": "m.received == 0 && m.sent < c[m.sender]",
    },
    "sender and receiver exchanged": {"(m.sender, m.receiver) == (sender, receiver)": "(m.receiver, m.sender) == (sender, receiver)"},
    "messages to any station": {"(m.sender, m.receiver) == (sender, receiver)": "m.sender == sender && sender != receiver"},
    "messages from any station": {"(m.sender, m.receiver) == (sender, receiver)": "m.receiver == receiver && sender != receiver"},
    "messages of a station with itself": {
        "(m.sender, m.receiver) == (sender, receiver)": "m.sender == sender && (m.receiver == receiver || sender == receiver)"
    },
    "rounds for what is received": {"                passes += 1;\n": "                passes += 1;\n                self.rounds += 1;\n"},
    "16 by the token before 07": {
        "    workable(&mut Tokens(f), true, Fault::ClearJoined)\n":
            "    let wrong = f.windows(2).any(|w| matches!(w, [Not | Always, Clear { .. }]));\n"
            "    if wrong { Err(Fault::ClearUnderNot) } else { Ok(()) }\n"
    },
    "16 by the number of nots": {"Always => workable(f, false, ": "Always => workable(f, sign, "},
    "16 under not possibly": {"Possibly => workable(f, true, ": "Possibly => workable(f, sign, "},
    "16 of the left side alone": {"workable(f, sign, Fault::ClearJoined)?;\n            workable(f, sign, Fault::ClearJoined)": "workable(f, sign, Fault::ClearJoined)?;\n            workable(f, true, Fault::ClearJoined)"},
    "16 before 9": {"    if f.len() > 32 {\n": "    workable(&mut Tokens(f), true, Fault::ClearJoined)?;\n    if f.len() > 32 {\n"},
    "07 not among the twelve": {"matches!(t, Range { .. } | Clear { .. })": "matches!(t, Range { .. })"},
    "07 holds no structure": {"(Range { .. } | Clear { .. }, _) => ONE,": "(Range { .. }, _) => ONE,\n        (Clear { .. }, _) => Size { held: 0, ..ONE },"},
    "sender of 07 not there": {"if sender.max(receiver) >= stations {": "if receiver >= stations {"},
    "receiver of 07 not there": {"if sender.max(receiver) >= stations {": "if sender >= stations {"},
    "65th message accepted": {MESSAGES: "if self.messages.len() == self.limits.messages + 1 {"},
    "64th message refused": {MESSAGES: "if self.messages.len() + 1 == self.limits.messages {"},
    "program of 63 messages": {MESSAGES: "if self.messages.len() == self.limits.messages - (self.limits.events == 127) as usize {"},
    "65th message at fault as 15": {
        "        if self.messages.len() == self.limits.messages {\n            return Err(Fault::TooManyMessages);\n        }\n": "",
        "        self.messages.push(m);\n": "        if self.messages.len() == self.limits.messages {\n            return Err(Fault::TooManyMessages);\n        }\n        self.messages.push(m);\n",
    },
    "message before the header as 15": {"            0x25 => self.message(": "            0x25 if self.stations() == 0 => Err(Fault::MessageLength),\n            0x25 => self.message("},
    "message after a question accepted": {"        if !self.questions.is_empty() {\n            return Err(Fault::MessageAfterQuestion);\n        }\n": ""},
    "event after a message accepted": {"if !self.messages.is_empty() {": "if false {"},
    "message too long accepted": {"let &[sender, sent, receiver, received] = f else": "let &[sender, sent, receiver, received, ..] = f else"},
    "message named twice refused": {"        self.messages.push(m);\n": "        if self.messages.contains(&m) {\n            return Err(Fault::MessageLength);\n        }\n        self.messages.push(m);\n"},
    "receiver not there if it never came": {
        "self.history.get(m.receiver).ok_or(": "self.history.get(m.receiver).or(self.history.first().filter(|_| received == 0)).ok_or("
    },
    "sender equal to receiver accepted": {"if m.sender == m.receiver {": "if false {"},
    "sender's event 0 accepted": {"if sent == 0 {": "if false {"},
    "sender's event one too large": {"if sent as usize >= sending.len() {": "if sent as usize > sending.len() {"},
    "receiver's event too large": {"receiving.get(received as usize).ok_or(": "receiving.get(received as usize).or(receiving.last()).ok_or("},
    "receiving clock not looked at": {"if received > 0 && event.clock[m.sender] < sent {": "if false {"},
    "receiving clock one short": {"event.clock[m.sender] < sent {": "event.clock[m.sender] + 1 < sent {"},
    "receiving clock to count more": {"event.clock[m.sender] < sent {": "event.clock[m.sender] <= sent {"},
    "08 looks at the value": {"Field::Panel => self.panel,": "Field::Panel => self.value,"},
    "01 looks at the panel": {"Field::Value => self.value,": "Field::Value => self.panel,"},
    "01 looks at the panel under 11": {"Event { value: word(0), panel:": "Event { value: word(bytes.len() - 2), panel:"},
    "panel before the value": {
        "Event { value: word(0), panel: word(2), clock }":
            "Event { value: word(bytes.len() - 2), panel: if bytes.len() == 4 { word(0) } else { 0 }, clock }"
    },
    "panel before the value in events": {"Event::new(fields, clock)": "Event::new(&[&fields[bytes - 2..], &fields[..bytes - 2]].concat(), clock)"},
    "panel behind the clock": {"f[1..].split_at(bytes))": "(&[&f[1..3], &f[3 + n..]].concat()[..], &f[3..3 + n]))"},
    "panel of the event before": {"if wanted(&h[k]) {": "if wanted(&Event { panel: h[k.saturating_sub(1)].panel, ..h[k] }) {"},
    "panel of the next event": {"if wanted(&h[k]) {": "if wanted(&Event { panel: h[(k + 1).min(h.len() - 1)].panel, ..h[k] }) {"},
    "panel of the last event of all": {"if wanted(&h[k]) {": "if wanted(&Event { panel: h[h.len() - 1].panel, ..h[k] }) {"},
    "panel of the header at every event": {"if wanted(&h[k]) {": "if wanted(&Event { panel: h[0].panel, ..h[k] }) {"},
    "panel 0 taken for the one before": {
        TAKEN:
            "        let (mut e, before) = (Event::new(fields, clock), self.history[s].last().unwrap().panel);\n"
            "        e.panel = if e.panel == 0 { before } else { e.panel };\n"
            "        self.history[s].push(e);\n"
    },
    "panel of another station": {
        "Ok(Range { field, station, lo, hi })": "Ok(Range { field, station: (station + (field == Field::Panel) as usize) % stations, lo, hi })"
    },
    "panel of station 0": {"Ok(Range { field, station, lo, hi })": "Ok(Range { field, station: if field == Field::Panel { 0 } else { station }, lo, hi })"},
    "panel of its low byte alone": {"panel: word(2), clock }": "panel: word(2) % 256, clock }"},
    "panel with its low byte first": {"panel: word(2), clock }": "panel: word(2).swap_bytes(), clock }"},
    "panels of events ignored": {"Event::new(fields, clock)": "Event::new(&fields[..2], clock)"},
    "header's panels ignored": {"vec![Event::new(b, [0; 8])]": "vec![Event::new(&b[..2], [0; 8])]"},
    "header's panels taken for values": {
        "initial.chunks(bytes).map(|b| vec![Event::new(b, [0; 8])])":
            "initial.chunks(bytes).zip(initial.chunks(2)).map(|(b, v)| vec![Event { value: Event::new(v, [0; 8]).value, ..Event::new(b, [0; 8]) }])"
    },
    "header's panels behind all values": {
        "initial.chunks(bytes).map(|b| vec![Event::new(b, [0; 8])])":
            "(0..n).map(|s| [&initial[2 * s..2 * s + 2], initial.get(2 * (n + s)..2 * (n + s) + 2).unwrap_or(&[])].concat())"
            ".map(|b| vec![Event::new(&b, [0; 8])])"
    },
    "panel of header 10 the value": {"panel: word(2), clock }": "panel: word(bytes.len() - 2), clock }"},
    "panel of header 10 from the clock": {"Event::new(fields, clock)": "Event::new(&f[1..f.len().min(5)], clock)"},
    "panel of header 10 is 1": {"map_or(0, |b|": "map_or(1, |b|"},
    "panel of header 10 in no range": {TESTED: f"if self.log.panels || field as u8 == 0 {{ {TESTED} }} else {{ !sign }}"},
    "08 refused under header 10": {
        "        fits(&q)?;\n":
            "        fits(&q)?;\n"
            "        if !self.panels && crate::formula::atoms(&q)[1] > 0 {\n"
            "            return Err(Fault::UnknownToken);\n"
            "        }\n"
    },
    "header 11 refused": {"0x10 | 0x11 => self.header(": "0x10 => self.header("},
    "header 11 refused by the program": {"0x10 | 0x11 => self.header(": "0x11 if self.limits.events == 127 => Err(Fault::UnknownKind),\n            0x10 | 0x11 => self.header("},
    "header 11 of four stations at most": {"if n > STATIONS {": "if n * bytes > 2 * STATIONS {"},
    "header 11 with the length of 10": {"([bytes, other], n) = (field_bytes(panels), n as usize);": "([bytes, other], n) = (field_bytes(false), n as usize);"},
    "header 11 as short as 10 accepted": {
        "if initial.len() != bytes * n {": "let bytes = if initial.len() == 2 * n { 2 } else { bytes };\n        if initial.len() != bytes * n {"
    },
    "header 10 as long as 11 accepted": {
        "if initial.len() != bytes * n {": "let bytes = if initial.len() == 4 * n { 4 } else { bytes };\n        if initial.len() != bytes * n {"
    },
    "events of 11 with the length of 10": {"= field_bytes(self.panels);": "= field_bytes(false);"},
    "event of 11 as short as of 10": {"= field_bytes(self.panels);": "= field_bytes(self.panels && f.len() != 3 + n);"},
    "event of 10 as long as of 11": {"= field_bytes(self.panels);": "= field_bytes(self.panels || f.len() == 5 + n);"},
    "second header of the other kind": {"if self.stations() > 0 {": "if self.stations() > 0 && panels == self.panels {"},
    "second header 11 accepted": {"if self.stations() > 0 {": "if self.stations() > 0 && !panels {"},
    "second header before any event": {"if self.stations() > 0 {": "if self.events > 0 {"},
    "second header 11 too short as 5": {"if self.stations() > 0 {": "if self.stations() > 0 && (!panels || f.len() == 1 + 4 * self.stations()) {"},
    "08 through zero empty": {TESTED: f"if lo <= hi || field as u8 == 0 {{ {TESTED} }} else {{ !sign }}"},
    "08 through zero refused": {"if station >= stations {": "if station >= stations || field == Field::Panel && lo > hi {"},
    "08 as true under not": {"if sign { Said::Inside }": "if sign || field as u8 == 1 { Said::Inside }"},
    "16 for 08": {"Range { .. } => Ok(()),": "Range { field: Field::Value, .. } => Ok(()),\n        Range { .. } => if sign { Ok(()) } else { Err(fault) },"},
    "08 not among the twelve": {"if all > 12 {": "if all - panels > 12 {"},
    "twelve 08 beside twelve others": {"if all > 12 {": "if panels.max(all - panels) > 12 {"},
    "08 holds no structure": {
        "(Range { .. } | Clear { .. }, _) => ONE,":
            "(Range { field: Field::Panel, .. }, _) => Size { held: 0, ..ONE },\n        (Range { .. } | Clear { .. }, _) => ONE,"
    },
    "station of 08 not there": {"if station >= stations {": "if station >= stations && field == Field::Value {"},
    "08 cut short accepted": {
        "let &[station, a, b, c, d] = operands else": "let mut full = operands.to_vec();\n    full.resize(if field == Field::Panel { 5 } else { full.len() }, 0);\n    let &[station, a, b, c, d] = &full[..] else"
    },
    "FFFF a number as any other": {SILENCE: "if false {"},
    "FFFF inside a range that reaches it": {REPLY: "return if within(lo, hi, v) { Said::Inside } else { Said::Silent };"},
    "FFFF outside a range that lacks it": {REPLY: "return if within(lo, hi, v) { Said::Silent } else { Said::Outside };"},
    "FFFF inside every range": {REPLY: "return Said::Inside;"},
    "FFFF outside every range": {REPLY: "return Said::Outside;"},
    "FFFF both inside and outside": {TESTED: f"{TESTED} || {TESTED.replace('wanted', 'Said::Silent')}"},
    "silent as false under always": counted("Token::Always => true, Token::Possibly => false"),
    "silent as true under possibly": counted("Token::Possibly => true, Token::Always => false"),
    "silent under possibly and always too": counted("Token::Always => above ^ sign, Token::Possibly => above ^ !sign"),
    "FFFF silent in 08 too": {SILENCE: "if v == SILENT {"},
    "FFFF silent in 08 alone": {SILENCE: "if field == Field::Panel && v == SILENT {"},
    "01 silent at panel FFFF too": {TESTED: f"{TESTED} && (field as u8 == 1 || e.panel != 0xFFFF)"},
    "initial FFFF not silent": {TESTED: f"if e.clock == [0; 8] {{ crate::formula::within(lo, hi, e.field(field)) == sign }} else {{ {TESTED} }}"},
    "later FFFF not silent": {TESTED: f"if e.clock != [0; 8] {{ crate::formula::within(lo, hi, e.field(field)) == sign }} else {{ {TESTED} }}"},
    "FFFE silent as well": {"&& v == SILENT {": "&& v >= SILENT - 1 {"},
    "every low byte FF silent": {"&& v == SILENT {": "&& v % 256 == 255 {"},
    "FFFF not silent through zero": {SILENCE: "if field == Field::Value && v == SILENT && lo <= hi {"},
    "FFFF silent through zero alone": {SILENCE: "if field == Field::Value && v == SILENT && lo > hi {"},
    "FFFF not silent as an end": {SILENCE: "if field == Field::Value && v == SILENT && lo != SILENT && hi != SILENT {"},
    "FFFF..FFFF asks for silence": {SILENCE: "if field == Field::Value && v == SILENT && lo.min(hi) != SILENT {"},
    "ranges of every number hold FFFF": {SILENCE: "if field == Field::Value && v == SILENT && hi.wrapping_add(1) != lo {"},
    "silent keeps the value before": {
        TAKEN: "        let (mut e, before) = (Event::new(fields, clock), self.history[s].last().unwrap().value);\n"
            "        e.value = if e.value == 0xFFFF { before } else { e.value };\n"
            "        self.history[s].push(e);\n"
    },
    "silent once, silent for good": {
        TAKEN: "        let (mut e, before) = (Event::new(fields, clock), self.history[s].last().unwrap().value);\n"
            "        e.value = if before == 0xFFFF { before } else { e.value };\n"
            "        self.history[s].push(e);\n"
    },
    "event with FFFF refused": {TAKEN: "        if fields[..2] == [255; 2] {\n            return Err(Fault::EventStation);\n        }\n" + TAKEN},
    "17 after 18": {WIDE: f"if first.events + second.events <= OPERATIONS.events && !({SENT}) && {WIDE[3:]}"},
    "12 before 17 and 18": {TOGETHER: "    if out.len() < OPERATIONS.log {\n        return refused(Fault::Output);\n    }\n    together(&first, &second)?;\n    if false {"},
    "9 stations together": {WIDE: WIDE.replace("> STATIONS", "> STATIONS + 1")},
    "65 messages together": {SENT: f"{SENT} + 1"},
    "second log's refusal first": {"(Log::read(OPERATIONS, data)?, Log::read(OPERATIONS, more)?);": "(Log::read(OPERATIONS, data), Log::read(OPERATIONS, more)?);\n    let first = first?;"},
    "questions of the second not looked at": {
        "(Log::read(OPERATIONS, data)?, Log::read(OPERATIONS, more)?);":
            "(Log::read(OPERATIONS, data)?, more.split_inclusive(|b| *b == 10).take_while(|l| !l.starts_with(b\"30\")).collect::<Vec<_>>().concat());\n"
            "    let second = Log::read(OPERATIONS, &second)?;"
    },
    "messages not numbered on": {NUMBERED_ON: "vec![0x25, sender, sent, receiver, received]"},
    "receivers not numbered on": {NUMBERED_ON: "vec![0x25, on(sender), sent, receiver, received]"},
    "panels of header 10 not 0": {"{ &[0, 0] } else": "{ &[0, 1] } else"},
    "header of the first": {"(first.panels || second.panels, first.stations()": "(first.panels, first.stations()"},
    "zeros on the other side of clocks": {"&zeros[..before], clock, &zeros[..behind]": "&zeros[..behind], clock, &zeros[..before]"},
    "events of the second first": {"            out.extend(fs.iter().filter(|f| f[0] == kind)": "            let at = if kind == 0x20 { 1 } else { out.len() };\n            out.splice(at..at, fs.iter().filter(|f| f[0] == kind)"},
    "questions of both": {"out.extend(frames[0].iter().filter(|f| f[0] == 0x30)": "out.extend(frames.iter().flatten().filter(|f| f[0] == 0x30)"},
}

# What a log of the corpus prints: what the program does, and of each question its forecast, and what Answer comes to, lent one cell less
# than that and lent just these cells: a refusal, or a line, which is the program's where that takes the log. And what two logs print that
# are merged.
TOLD = """
fn told(data: &[u8]) -> Vec<u8> {
    use fault::{Fault, Refusal};
    use operations::*;
    let refused = |Refusal(fault, line): Refusal, kept: &str| format!(" refused {} {line}{kept}\\n", fault.number()).into_bytes();
    let shown = printed(data);
    let (mut out, mut lines) = (shown.clone(), shown.split_inclusive(|&b| b == b'\\n').filter(|line| line.starts_with(b"40")));
    let log = match log::Log::read(log::OPERATIONS, data) {
        Ok(log) => log,
        Err(r) => return [out, refused(r, "")].concat(),
    };
    for q in &log.questions {
        let costs = costs(&log, q);
        let ([width, bars, held, cells, ceiling], line) = (costs, lines.next().map_or_else(|| answer_question(&log, q), <[u8]>::to_vec));
        out.extend(format!(" {width} {bars} {held} {cells} {ceiling}\\n").bytes());
        for lent in [cells - 1, cells] {
            out.extend(match room(costs, lent, BARS) {
                Ok(()) => [&b" kept\\n"[..], &line].concat(),
                Err(r) => refused(r, " kept"),
            });
        }
    }
    [out, refused(Refusal(Fault::NoSuchQuestion, 0), "")].concat()
}
fn merged(first: &[u8], second: &[u8], size: usize) -> Vec<u8> {
    let mut out = vec![165; size];
    match operations::merge(first, second, &mut out) {
        Ok(n) => format!("M {n} {} kept\\n", out[..n].iter().map(|b| format!("{b:02x}")).collect::<String>()).into_bytes(),
        Err(fault::Refusal(fault, line)) => format!("M refused {} {line}  kept\\n", fault.number()).into_bytes(),
    }
}
"""

# Prints what is to be printed for the cases one by one, by the rule of the number given, and a line with a full stop behind each.
MAIN = """
use std::io::{Read, Write};
use std::sync::atomic::{AtomicUsize, Ordering::Relaxed};
static RULE: AtomicUsize = AtomicUsize::new(0);
fn rule() -> usize {
    RULE.load(Relaxed)
}
fn shown(case: &[u8], data: &[u8]) -> Vec<u8> {
    match case {
        [b'M', _, _, _, _, _, high, low, _, _, first, rest, ..] => {
            let (first, second) = data.split_at(*first as usize * 256 + *rest as usize);
            merged(first, second, *high as usize * 256 + *low as usize)
        }
        _ => [&b"E\\n"[..], &told(data)].concat(),
    }
}
fn main() {
    RULE.store(std::env::args().nth(1).unwrap().parse().unwrap(), Relaxed);
    let mut data = Vec::new();
    std::io::stdin().read_to_end(&mut data).unwrap();
    std::panic::set_hook(Box::new(|_| {}));
    let (mut rest, mut out) = (&data[..], Vec::new());
    while !rest.is_empty() {
        let (case, after) = rest.split_at(10 + rest[2] as usize);
        let (data, after) = after.split_at(case[8] as usize * 256 + case[9] as usize);
        out.extend(std::panic::catch_unwind(|| shown(case, data)).unwrap_or(b"panicked\\n".to_vec()));
        out.extend(b".\\n");
        rest = after;
    }
    std::io::stdout().write_all(&out).unwrap();
}
"""

# A function: the line that closes it is indented as its first is.
FUNCTION = re.compile(r"^( *)(?:pub )?fn [^{]*\{\n(?P<body>.*?)^\1\}$", re.M | re.S)


def pieces(text):
    """A text cut before and behind the body of each of its functions: every second piece is a body."""
    cuts = [0, *(at for m in FUNCTION.finditer(text) for at in m.span("body")), len(text)]
    return [text[a:b] for a, b in pairwise(cuts)]


def edited(right, edits):
    """The bodies that a rule changes, by part and place."""
    wrong = {}
    for old, new in edits.items():
        now = right | wrong
        places = [at for at, piece in now.items() for _ in range(piece.count(old))]
        if [k % 2 for _, k in places] != [1]:
            sys.exit(f"not once in a function's body: {old!r}")
        wrong[places[0]] = now[places[0]].replace(old, new)
    return wrong


def switched(right, bodies):
    """A piece with the bodies that rules put in its place, by their numbers."""
    if not bodies:
        return right
    return "match crate::rule() {\n" + "".join(f"{i} => {{\n{body}}}\n" for i, body in bodies) + f"_ => {{\n{right}}}\n}}\n"


def build(folder):
    """One program for the implementation as it stands, 0, and for all rules: a function has a body more for each rule that changes it, so that
    all else is compiled but once."""
    right = {(part, k): piece for part in PARTS for k, piece in enumerate(pieces((SOURCE / f"{part}.rs").read_text()))}
    wrong = [(i, edited(right, edits)) for i, edits in enumerate(RULES.values(), 1)]
    texts = dict.fromkeys(PARTS, "")
    for at, piece in right.items():
        texts[at[0]] += switched(piece, [(i, bodies[at]) for i, bodies in wrong if at in bodies])
    for part, text in texts.items():
        (folder / f"{part}.rs").write_text(text)
    (folder / "main.rs").write_text("".join(f"mod {part};\n" for part in PARTS) + TOLD + MAIN)
    options = ["--edition", "2021", "-C", "opt-level=3", "-C", "codegen-units=1", "-A", "warnings"]
    subprocess.run(["rustc", *options, "main.rs"], cwd=folder, check=True)


def corpus():
    """The cases of the corpus and of pairs of logs, and what is to be printed for each."""
    made = parted(*((CASES / name).read_bytes() for name in ("stdin", "stdout")))
    return zip(*[(case, printed) for case, printed in made if case[:1] in (b"E", b"M")])


def answers(folder, i, cases):
    """What is printed for each case by the implementation as it stands, 0, or by a wrong rule."""
    run = subprocess.run([folder / "main", str(i)], input=b"".join(cases), capture_output=True, check=True)
    return tuple(run.stdout.split(b".\n")[:-1])


def main():
    cases, expected = corpus()
    few = False
    with tempfile.TemporaryDirectory() as name:
        folder = pathlib.Path(name)
        build(folder)
        if answers(folder, 0, cases) != expected:
            sys.exit("the implementation as it stands does not print what is expected")
        print(f"{'wrong rule':36} told apart by, of {len(expected)} logs or pairs")
        for i, rule in enumerate(RULES, 1):
            told = sum(a != b for a, b in zip(answers(folder, i, cases), expected, strict=True))
            few = few or told < LEAST
            print(f"{rule:36} {told}{', too few' if told < LEAST else ''}", flush=True)
    sys.exit(1 if few else 0)


main()
