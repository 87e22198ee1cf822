//! A chain as JSON.
use crate::chain::{Case, End, Part, Step, Way, Why};
use crate::formula::{Aspect, Formula};
use crate::json::Json;

pub fn json(why: &Why) -> Json {
    Json::object([("ways", Json::list(why.ways.iter().map(way)))])
}

fn count(number: usize) -> Json {
    Json::number(number as u32)
}

fn way(way: &Way) -> Json {
    Json::object([("parts", Json::list(way.parts.iter().map(part))), ("cases", Json::list(way.cases.iter().map(case)))])
}

fn part(part: &Part) -> Json {
    match part {
        Part::Range { inside, aspect, station, lo, hi } => Json::object([
            ("part", Json::text("range")),
            ("inside", Json::Bool(*inside)),
            ("aspect", Json::text(if *aspect == Aspect::Value { "value" } else { "panel" })),
            ("station", count(*station)),
            ("lo", Json::number(*lo)),
            ("hi", Json::number(*hi)),
        ]),
        Part::Clear { from, to } => Json::object([("part", Json::text("clear")), ("from", count(*from)), ("to", count(*to))]),
        Part::Possibly { of, line, moments, why, .. } => Json::object([
            ("part", Json::text("possibly")),
            ("of", bytes(of)),
            ("line", Json::text(line)),
            ("moments", cuts(moments)),
            ("why", why.as_ref().map_or(Json::Null, json)),
        ]),
        Part::NotPossibly { of, line, moments, .. } => {
            Json::object([("part", Json::text("not possibly")), ("of", bytes(of)), ("line", Json::text(line)), ("moments", cuts(moments))])
        }
    }
}

fn bytes(formula: &Formula) -> Json {
    Json::text(formula.bytes().iter().map(|b| format!("{b:02X}")).collect::<String>())
}

fn cuts(moments: &[Vec<u8>]) -> Json {
    Json::list(moments.iter().map(|m| Json::numbers(m)))
}

fn case(case: &Case) -> Json {
    let before = case.before.iter().map(|(part, moment)| Json::list([count(*part), count(*moment)]));
    Json::object([("before", Json::list(before)), ("steps", Json::list(case.steps.iter().map(step))), ("end", end(&case.end))])
}

fn fields<const N: usize>(kind: &str, name: &str, numbers: [(&str, usize); N]) -> Json {
    let rest = numbers.map(|(field, number)| (field.to_string(), count(number)));
    Json::Object([(kind.to_string(), Json::text(name))].into_iter().chain(rest).collect())
}

fn step(step: &Step) -> Json {
    let seen = |name, station: usize, event: u8, other: usize, count: u8| {
        fields("step", name, [("station", station), ("event", event.into()), ("other", other), ("count", count.into())])
    };
    let fits = |name, station: usize, from: u8, to: u8| {
        fields("step", name, [("station", station), ("from", from.into()), ("to", to.into())])
    };
    match *step {
        Step::Fits { station, from, to } => fits("fits", station, from, to),
        Step::Seen { station, event, other, count } => seen("seen", station, event, other, count),
        Step::Received { message } => fields("step", "received", [("message", message)]),
        Step::FitsLast { station, from, to } => fits("fits last", station, from, to),
        Step::NotSeen { station, event, other, count } => seen("not seen", station, event, other, count),
        Step::NotSent { message } => fields("step", "not sent", [("message", message)]),
    }
}

fn end(end: &End) -> Json {
    match *end {
        End::NoneFits { station, from, to } => fields("end", "none fits", [("station", station), ("from", from.into()), ("to", to.into())]),
        End::NeverCame { message } => fields("end", "never came", [("message", message)]),
        End::Past { station, least, most } => fields("end", "past", [("station", station), ("least", least.into()), ("most", most.into())]),
        End::Barred { part, moment } => fields("end", "barred", [("part", part), ("moment", moment)]),
    }
}
