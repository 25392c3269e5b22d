//! Stand-in for lib.rs, which names modules that docs/src doesn't have.

pub mod internal;
pub mod metrics;
pub mod opened;

/// The one case that `metrics/evaluation.rs` names; the Rust's own needs the crate thiserror.
#[derive(Debug)]
pub enum Error {
    MetricsError(String),
}

pub type Result<T> = std::result::Result<T, Error>;
