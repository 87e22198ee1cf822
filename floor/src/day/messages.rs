//! Messages, by the events that send and receive them.
use super::errors::{quote, Errors};
use super::events::Events;
use super::reader::{digits, meant, short, Reader};
use super::scope::Scope;

/// Stations, and numbers of their events from 1; received is 0 where it never came.
pub struct Message {
    pub sender: usize,
    pub sent: usize,
    pub receiver: usize,
    pub received: usize,
    pub line: usize,
}

/// `NAME K to NAME K`, or never in place of the second K.
pub fn read<'a>(scope: &Scope<'a>, reader: &mut Reader<'a, '_>) -> Option<Message> {
    let sender = scope.station(reader);
    let sent = number(reader, "sends")?;
    reader.word("to")?;
    let receiver = scope.station(reader);
    let received = if reader.skip("never") { 0 } else { number(reader, "receives")? };
    reader.end(&[])?;
    let (sender, receiver) = (sender?, receiver?);
    if sender == receiver {
        let name = scope.stations[sender].0;
        reader.fault(format!("{name} sends the message and receives it; a message goes to another station, so correct one of the two"));
    }
    reader.sound.then_some(Message { sender, sent, receiver, received, line: reader.line.number })
}

/// The number of the event that sends or receives.
fn number(reader: &mut Reader, does: &str) -> Option<usize> {
    if !reader.sound && reader.peek().and_then(digits).is_none() {
        return None;
    }
    let or = if does == "sends" { "" } else { ", or \"never\"" };
    let Some(word) = reader.peek().filter(|w| *w != "to") else {
        let or = if or.is_empty() { "" } else { ", or \"never\"," };
        reader.fault(format!("the number of the event that {does} it{or} is missing behind {}; write: {}", reader.last(), reader.form()));
        return None;
    };
    match digits(word) {
        Some(0) => reader.fault(format!("events count from 1; write the number of the event that {does} it{or}")),
        Some(number) if number > moment::EVENTS => {
            reader.fault(format!("{} is too large; a day has at most {} events", short(word), moment::EVENTS));
        }
        Some(number) => {
            reader.take();
            return Some(number);
        }
        None if !or.is_empty() && reader.errors.speller.nearest(word, ["never"]).is_some() => reader.fault(meant(word, "never")),
        None => reader.fault(format!("{} is no number; write that of the event that {does} it{or}", quote(word))),
    }
    None
}

/// Both events have to be there, and the one that receives has to have seen the one that sends.
pub fn check(message: &Message, scope: &Scope, events: &Events, errors: &mut Errors) {
    let Message { sender, sent, receiver, received, line } = *message;
    let (from, to) = (scope.stations[sender].0, scope.stations[receiver].0);
    if events.gap {
        return;
    }
    let Some(sending) = events.get(sender, sent) else {
        return errors.add(line, missing(from, sent, events.count(sender)));
    };
    if received == 0 {
        return;
    }
    let Some(receiving) = events.get(receiver, received) else {
        return errors.add(line, missing(to, received, events.count(receiver)));
    };
    if receiving.clock[sender] >= sent || !receiving.sound {
        return;
    }
    let seen = format!("message: {to}'s event {received} has not seen {from}'s event {sent}");
    if sending.line < receiving.line {
        errors.add(line, format!("{seen}; write \"after {from} {sent}\" at that event (line {})", receiving.line));
    } else {
        let todo = format!("put line {} above line {}, and write \"after {from} {sent}\" there", sending.line, receiving.line);
        errors.add(line, format!("{seen}, which stands below it; {todo}"));
    }
}

fn missing(station: &str, number: usize, count: usize) -> String {
    match count {
        0 => format!("message: {station} has no event {number}; it has none at all"),
        1 => format!("message: {station} has no event {number}; its only one is event 1"),
        _ => format!("message: {station} has no event {number}; it has events 1 to {count}"),
    }
}
