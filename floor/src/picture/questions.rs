//! The questions with their answers: what can be chosen, and what is shown of it.
use super::text::{counted, escape};
use super::{Never, Shown};
use crate::ask::Asked;
use crate::explain;
use crate::log::{Cut, Message};

const NEVER: &str = "never, in any order that the messages allow";

impl Shown {
    pub fn questions(&self) -> String {
        let sections: String = self.answers.iter().enumerate().map(|(q, (asked, never))| self.question(q, asked, never.as_ref())).collect();
        format!("<div class=\"questions\">\n{sections}</div>\n")
    }

    fn question(&self, q: usize, asked: &Asked, never: Option<&Never>) -> String {
        let question = &self.source.log.questions[q];
        let (words, numbers) = (question.formula.words(&self.source.names), question.formula.words(&self.source.names.numbers()));
        let in_numbers = (words != numbers).then(|| format!("<p class=\"numbers\">in numbers: {}</p>\n", escape(&numbers)));
        let answer = match asked.answer.moments.len() {
            0 => "nothing".to_string(),
            count => counted(count, "greatest moment"),
        };
        let start = if asked.answer.start { "yes" } else { "no" };
        let silences = explain::silences(&self.source, &question.formula);
        let silences: String = silences.iter().map(|silence| format!("<p class=\"silence\">{}</p>\n", escape(silence))).collect();
        format!(
            "<section class=\"question\" data-question=\"{q}\" aria-labelledby=\"question-{q}\">\n<div class=\"asked\">\n\
             <p class=\"which\">Question {}, line {}</p>\n<h2 id=\"question-{q}\">{}</h2>\n{}\
             <p class=\"answer\">True at the start: <b>{start}</b>. Listed: {answer}.</p>\n{silences}{}{}</div>\n\
             <div class=\"found\">\n{}</div>\n</section>\n",
            q + 1, self.source.line(question.line), escape(&words), in_numbers.unwrap_or_default(), self.choices(q, asked), proof(asked),
            self.found(q, asked, never)
        )
    }

    /// One for each moment, or one for what never was.
    fn choices(&self, q: usize, asked: &Asked) -> String {
        let choice = |value: String, cut: String, words: String| {
            format!(
                "<label class=\"choice\"><input type=\"radio\" name=\"chosen\" value=\"{value}\"{cut} autocomplete=\"off\">\
                 <span>{words}</span></label>\n"
            )
        };
        let moment = |(i, cut): (usize, &Vec<u8>)| {
            let counts: Vec<String> = cut.iter().map(u8::to_string).collect();
            let words = format!("<b>Moment {}:</b> {}", i + 1, escape(&self.counts(cut)));
            choice(format!("{q},{i}"), format!(" data-cut=\"{}\"", counts.join(",")), words)
        };
        match &asked.answer.moments[..] {
            [] => choice(q.to_string(), String::new(), format!("<b class=\"never\">{NEVER}</b>")),
            moments => moments.iter().enumerate().map(moment).collect(),
        }
    }

    /// A cut in words.
    fn counts(&self, cut: &Cut) -> String {
        let some = cut.iter().enumerate().filter(|(_, &count)| count > 0);
        let counts: Vec<String> = some.map(|(s, count)| format!("{count} of {}", self.source.names.station(s))).collect();
        if counts.is_empty() { "before the first event".to_string() } else { format!("after {}", counts.join(", ")) }
    }

    fn found(&self, q: usize, asked: &Asked, never: Option<&Never>) -> String {
        match never {
            None => asked.answer.moments.iter().enumerate().map(|(i, cut)| self.moment(q, i, cut)).collect(),
            Some(Err(why)) => format!("<div class=\"told\"><p>No chain can be shown: {}</p></div>\n", escape(why)),
            Some(Ok((lines, _))) => {
                let lines: String = lines.iter().map(|line| format!("<p>{}</p>", escape(line))).collect();
                format!("<div class=\"told\"><h3>Question {}: why never</h3>{lines}</div>\n", q + 1)
            }
        }
    }

    /// What every station was doing at a moment, and what was on the way.
    fn moment(&self, q: usize, i: usize, cut: &Cut) -> String {
        let panel = if self.source.log.panels { "<th scope=\"col\">Panel</th>" } else { "" };
        let rows: String = (0..cut.len()).map(|s| self.doing(s, cut)).collect();
        let way = match &self.source.log.on_the_way(cut)[..] {
            _ if self.source.log.messages.is_empty() => String::new(),
            [] => "<p>On the way: nothing.</p>\n".to_string(),
            messages => {
                let messages: String = messages.iter().map(|m| self.message(m)).collect();
                format!("<p>On the way:</p>\n<ul>\n{messages}</ul>\n")
            }
        };
        format!(
            "<div class=\"moment-table\" data-table=\"{q},{i}\">\n<table>\n\
             <caption>Question {}, moment {}: what every station was doing</caption>\n\
             <thead><tr><th scope=\"col\">Station</th><th scope=\"col\">Events so far</th><th scope=\"col\">Line of the last</th>\
             <th scope=\"col\">Value</th>{panel}</tr></thead>\n<tbody>\n{rows}</tbody>\n</table>\n{way}</div>\n",
            q + 1, i + 1
        )
    }

    fn doing(&self, station: usize, cut: &Cut) -> String {
        let (count, last) = (cut[station], self.source.log.last(station, cut));
        let panel = if self.source.log.panels { format!("<td>{}</td>", last.panel) } else { String::new() };
        let (name, value) = (escape(&self.source.names.station(station)), escape(&self.value(station, last.value)));
        let line = self.line_of_last(count as usize, last);
        format!("<tr><th scope=\"row\">{name}</th><td>{count}</td><td>{line}</td><td>{value}</td>{panel}</tr>\n")
    }

    fn message(&self, m: &Message) -> String {
        let (sender, receiver) = (self.source.names.station(m.sender), self.source.names.station(m.receiver));
        let received = if m.received == 0 { "never came".to_string() } else { format!("received with event {}", m.received) };
        let words = format!("{sender} to {receiver}, sent with event {}, {received} (line {})", m.sent, self.source.line(m.line));
        format!("<li>{}</li>\n", escape(&words))
    }
}

/// The proved line as it is, and what the answer took and could have taken.
fn proof(asked: &Asked) -> String {
    let (answer, f) = (&asked.answer, &asked.forecast);
    format!(
        "<dl class=\"proof\">\n<dt>Proved line</dt><dd><code>{}</code></dd>\n<dt>Rounds</dt><dd>{}</dd>\n\
         <dt>Forecast</dt><dd>at most {} and {}; {} held in {}, {}</dd>\n</dl>\n",
        escape(&answer.line), answer.rounds, counted(f.width, "moment"), counted(f.ceiling, "round"), counted(f.held, "structure"),
        counted(f.cells, "cell"), counted(f.bars, "bar")
    )
}
