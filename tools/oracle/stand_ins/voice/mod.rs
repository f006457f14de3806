//! A voice: the fields that `Models` reads, and no others.

pub mod model;
pub mod question;
pub mod tree;
pub mod window;

use self::{model::Model, question::Question, window::Windows};

#[derive(Clone)]
pub struct GlobalModelMetadata {
    pub num_states: usize,
    pub gv_off_context: Question,
}

#[derive(Clone)]
pub struct StreamModelMetadata {
    pub vector_length: usize,
    pub use_gv: bool,
}

#[derive(Clone)]
pub struct StreamModels {
    pub metadata: StreamModelMetadata,
    pub stream_model: Model,
    pub gv_model: Option<Model>,
    pub windows: Windows,
}

#[derive(Clone)]
pub struct Voice {
    pub metadata: GlobalModelMetadata,
    pub duration_model: Model,
    pub stream_models: Vec<StreamModels>,
}
