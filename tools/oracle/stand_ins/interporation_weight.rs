//! One voice needs no weights.

#[derive(Clone)]
pub struct InterporationWeight;

impl InterporationWeight {
    pub fn get_duration(&self) {}
    pub fn get_parameter(&self, _stream_index: usize) {}
    pub fn get_gv(&self, _stream_index: usize) {}
}
