//! A stream: each state's pairs and its voicing weight.

use super::MeanVari;

pub struct StreamParameter(Vec<(Vec<MeanVari>, f64)>);

impl StreamParameter {
    pub fn new(states: Vec<(Vec<MeanVari>, f64)>) -> Self {
        Self(states)
    }

    pub fn iter(&self) -> impl '_ + Iterator<Item = &(Vec<MeanVari>, f64)> {
        self.0.iter()
    }
}
