//! Stand-in for internal/mod.rs, which names filterpy and numpy as well.

pub mod motmetrics;
pub mod scipy;
