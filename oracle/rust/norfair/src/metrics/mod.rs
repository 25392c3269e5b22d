//! Stand-in for metrics/mod.rs, which docs/src doesn't have.

pub mod accumulator;
pub mod evaluation;

pub use accumulator::MOTAccumulator;

/// Read by `eval_mot_challenge` alone, which document 01 leaves out.
pub struct InformationFile;

impl InformationFile {
    pub fn new(_path: &std::path::Path) -> crate::Result<Self> {
        Err(crate::Error::MetricsError("no files here".to_string()))
    }
}
