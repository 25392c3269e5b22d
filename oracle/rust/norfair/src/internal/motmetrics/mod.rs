//! Stand-in for internal/motmetrics/mod.rs, which docs/src doesn't have.

pub mod accumulator;
pub mod iou;

pub use iou::iou_matrix;
