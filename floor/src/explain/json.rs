//! Answers for programs.
use super::Told;
use crate::json::Json;
use crate::source::Source;
use crate::why;

/// Bytes as digits.
fn digits(bytes: &[u8]) -> Json {
    Json::Text(bytes.iter().map(|b| format!("{b:02X}")).collect())
}

fn one(source: &Source, told: &Told) -> Json {
    let (forecast, answer) = (&told.asked.forecast, &told.asked.answer);
    let figure = |n: usize| Json::number(n as u32);
    let figures = [
        ("width", figure(forecast.width)),
        ("bars", figure(forecast.bars)),
        ("held", figure(forecast.held)),
        ("cells", figure(forecast.cells)),
        ("ceiling", figure(forecast.ceiling)),
    ];
    let (why, no_chain) = match &told.why {
        None => (Json::Null, Json::Null),
        Some(Ok(why)) => (why::json(why), Json::Null),
        Some(Err(text)) => (Json::Null, Json::text(text)),
    };
    Json::object([
        ("line", figure(told.question.line)),
        ("words", Json::Text(told.question.formula.words(&source.names))),
        ("bytes", digits(&told.question.formula.bytes())),
        ("forecast", Json::object(figures)),
        ("proved", Json::text(&answer.line)),
        ("start", Json::Bool(answer.start)),
        ("moments", Json::list(answer.moments.iter().map(|m| Json::numbers(m)))),
        ("rounds", Json::number(answer.rounds)),
        ("why", why),
        ("no_chain", no_chain),
    ])
}

/// All questions of a log, as one object.
pub fn told(source: &Source, told: &[Told]) -> Json {
    let stations = (0..source.log.stations.len()).map(|s| Json::Text(source.names.station(s)));
    Json::object([("stations", Json::list(stations)), ("questions", Json::list(told.iter().map(|t| one(source, t))))])
}
