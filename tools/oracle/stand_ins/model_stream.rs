//! What `Models::model_stream` fills and `MlpgAdjust::new` takes apart.

use super::{GvParameter, StreamParameter, Windows};

pub struct ModelStream<'a> {
    pub vector_length: usize,
    pub stream: StreamParameter,
    pub gv: Option<GvParameter>,
    pub windows: &'a Windows,
}
