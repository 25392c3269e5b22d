//! Module 2: internal/scipy/optimize.rs, and its copy with two counters for the counts.

use crate::words::{whole_run_words, Request};
use crate::Answer;
use norfair::internal::scipy::{counted, optimize, CORRECTIONS, PATHS};

pub const ANSWERS: &[(&str, Answer)] = &[("linear_sum_assignment", assignment)];

/// The lists as words; a macro, since the file and its copy have a result type each.
macro_rules! lists {
    ($found:expr) => {{
        let found = $found;
        let pairs: String = found.assignments.iter().map(|a| format!(" {} {}", a.row_idx, a.col_idx)).collect();
        let (rows, columns) = (whole_run_words(&found.unmatched_rows), whole_run_words(&found.unmatched_cols));
        format!("{}{pairs} {rows} {columns}", found.assignments.len())
    }};
}

fn assignment(request: &mut Request) -> Option<String> {
    let (rows, columns, cost, max_cost) = (request.count()?, request.count()?, request.run()?, request.float()?);
    request.end()?;
    let matrix: Vec<_> = (0..rows).map(|i| cost[i * columns..(i + 1) * columns].to_vec()).collect();
    let said = lists!(optimize::linear_sum_assignment(&matrix, max_cost));
    CORRECTIONS.set(0);
    PATHS.set(0);
    let counted = lists!(counted::linear_sum_assignment(&matrix, max_cost));
    if counted != said {
        return Some(format!("the counted copy differs: {said}; {counted}"));
    }
    Some(format!("0 {said} {} {}", CORRECTIONS.get(), PATHS.get()))
}
