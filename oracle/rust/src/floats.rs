//! The standard library's floats, as the Rust uses them.

use crate::words::{computed, float_word, Request};
use crate::Answer;

pub const ANSWERS: &[(&str, Answer)] = &[
    ("min", |r| of_two(r, f64::min)),
    ("max", |r| of_two(r, f64::max)),
    ("abs", |r| {
        let x = r.float()?;
        r.end()?;
        Some(float_word(computed(x.abs())))
    }),
    ("is_finite", |r| test(r, f64::is_finite)),
    // the zero test as optimize.rs writes it out, four times
    ("is_zero", |r| test(r, |x| x.abs() < 1e-10)),
];

fn of_two(request: &mut Request, rule: fn(f64, f64) -> f64) -> Option<String> {
    let (x, y) = (request.float()?, request.float()?);
    request.end()?;
    Some(float_word(computed(rule(x, y))))
}

fn test(request: &mut Request, rule: fn(f64) -> bool) -> Option<String> {
    let x = request.float()?;
    request.end()?;
    Some(if rule(x) { "1" } else { "0" }.to_string())
}
