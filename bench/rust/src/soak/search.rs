//! The assignment search.

use crate::{numbers::Numbers, port};
use norfair::internal::scipy::optimize::linear_sum_assignment;

/// Both sides on one matrix; None, or what differs. The step counts stay under document 01's bound.
pub fn compare(run: &[f64], rows: usize, cols: usize, most: f64) -> Option<String> {
    let matrix: Vec<Vec<f64>> = run.chunks(cols).map(<[f64]>::to_vec).collect();
    let rust = linear_sum_assignment(&matrix, most);
    let mut out = [0; port::FLAT];
    let number = port::linear_sum_assignment(run, rows, cols, most, &mut out);
    let n = rows.max(cols);
    let agree = number == 0
        && rust.assignments.len() == out[0]
        && rust.assignments.iter().enumerate().all(|(k, pair)| (pair.row_idx, pair.col_idx) == (out[5 + k], out[69 + k]))
        && rust.unmatched_rows == out[133..133 + out[1]]
        && rust.unmatched_cols == out[197..197 + out[2]]
        && out[3] <= n * (n + 1) / 2
        && out[4] <= n;
    (!agree).then(|| format!("{rows} by {cols}, at most {most:?}: {run:?}: {rust:?}, the port {number} {out:?}"))
}

fn entries(numbers: &mut Numbers, count: usize) -> Vec<f64> {
    let kind = numbers.below(9);
    let mut run: Vec<f64> = (0..count)
        .map(|_| match kind {
            0 => numbers.below(4) as f64,
            1 => numbers.below(100) as f64,
            2 => numbers.below(1_000_000) as f64,
            3 => numbers.fraction(),
            4 => numbers.below(50) as f64 * 1e-10,
            5 => 1048576.0 + numbers.below(20) as f64 * 1e-10,
            6 => numbers.telling(),
            7 => numbers.bits(),
            _ => ((1 + numbers.below(9)) * (1 + numbers.below(9))) as f64,
        })
        .collect();
    if numbers.below(5) == 0 {
        for _ in 0..1 + numbers.below(3) {
            let at = numbers.below(count as u64) as usize;
            run[at] = numbers.telling();
        }
    }
    run
}

pub fn call(numbers: &mut Numbers) -> Option<String> {
    let mut side = || match numbers.below(1000) {
        0 => 1 + numbers.below(64),
        1..=20 => 1 + numbers.below(20),
        _ => 1 + numbers.below(6),
    } as usize;
    let (rows, cols) = (side(), side());
    let run = entries(numbers, rows * cols);
    let most = match numbers.below(4) {
        0 => run[numbers.below((rows * cols) as u64) as usize],
        1 => numbers.telling(),
        _ => f64::INFINITY,
    };
    compare(&run, rows, cols, most)
}

/// Floats for all squares of three.
pub const FIVE: [f64; 5] = [0.0, 1.0, 2.0, f64::NAN, f64::INFINITY];

/// All squares of each side over its floats, and every pair of sizes up to 64 once; how many, or what differs.
pub fn exhaustive(squares: &[(usize, &[f64])]) -> Result<u64, String> {
    let mut done = 0;
    for &(side, floats) in squares {
        let places = side * side;
        for code in 0..floats.len().pow(places as u32) {
            let run: Vec<f64> = (0..places).map(|k| floats[code / floats.len().pow(k as u32) % floats.len()]).collect();
            compare(&run, side, side, f64::INFINITY).map_or(Ok(()), Err)?;
            done += 1;
        }
    }
    let mut numbers = Numbers::new(64);
    for (rows, cols) in (1..=64).flat_map(|h| (1..=64).map(move |w| (h, w))) {
        let run: Vec<f64> = (0..rows * cols).map(|_| numbers.below(100) as f64).collect();
        compare(&run, rows, cols, f64::INFINITY).map_or(Ok(()), Err)?;
        done += 1;
    }
    Ok(done)
}
