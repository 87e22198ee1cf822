//! Questions put to the proved code.
use crate::log::Log;
use moment::{Answer, Forecast, Refusal};

/// What the proved code says of one question.
pub struct Asked {
    pub forecast: Forecast,
    pub answer: Answer,
}

/// What it says of each question of a log.
pub fn all(log: &Log) -> Result<Vec<Asked>, Refusal> {
    let one = |question| Ok(Asked { forecast: moment::forecast(&log.bytes, question)?, answer: moment::answer(&log.bytes, question)? });
    (0..log.questions.len()).map(one).collect()
}
