//! Stand-in for internal/scipy/mod.rs, which docs/src doesn't have.

/// optimize.rs with two lines put in by oracle/build, one at each count.
pub mod counted;
pub mod optimize;

thread_local! {
    pub static CORRECTIONS: std::cell::Cell<u64> = const { std::cell::Cell::new(0) };
    pub static PATHS: std::cell::Cell<u64> = const { std::cell::Cell::new(0) };
}
