//! What each question of a log can cost, and its answer with just the cells forecast: by the proved code alone.
use moment::{Forecast, Refusal};

/// A line with the figures of a question, and its answer line.
fn told(log: &[u8], question: usize) -> Result<String, Refusal> {
    let Forecast { width, bars, held, cells, ceiling } = moment::forecast(log, question)?;
    let line = moment::answer(log, question)?.line;
    Ok(format!("question {question}: width {width}, bars {bars}, held {held}, cells {cells}, ceiling {ceiling}\n{line}\n"))
}

/// The same for all questions; or the log's refusal.
pub fn all(log: &[u8]) -> String {
    let questions = moment::read(log).map(|r| r.questions);
    let lines = questions.and_then(|n| (0..n).map(|question| told(log, question)).collect());
    lines.unwrap_or_else(|Refusal { number, line }| format!("refused {number}, line {line}\n"))
}
