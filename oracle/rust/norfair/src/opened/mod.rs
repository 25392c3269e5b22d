//! The two accumulators of events again, with their fields made public by oracle/build, so that a request can begin at
//! any state.

pub mod accumulator;
pub mod motmetrics;

/// As it is, over the second accumulator here.
#[path = "../metrics/evaluation.rs"]
pub mod evaluation;

pub use crate::internal::motmetrics::iou;
pub use crate::metrics::InformationFile;
pub use accumulator::MOTAccumulator;
