//! A set of one voice, whose parameters are taken as they are.

use super::{
    GlobalModelMetadata, StreamModelMetadata, Voice, Windows, voice::model::ModelParameter,
};

#[derive(Clone)]
pub struct VoiceSet(pub Voice);

impl VoiceSet {
    pub fn global_metadata(&self) -> &GlobalModelMetadata {
        &self.0.metadata
    }

    pub fn stream_metadata(&self, stream_index: usize) -> &StreamModelMetadata {
        &self.0.stream_models[stream_index].metadata
    }

    pub fn stream_windows(&self, stream_index: usize) -> &Windows {
        &self.0.stream_models[stream_index].windows
    }

    pub fn weighted<'a>(
        &'a self,
        (): (),
        parameter: impl Fn(&'a Voice) -> &'a ModelParameter,
    ) -> ModelParameter {
        parameter(&self.0).clone()
    }
}
