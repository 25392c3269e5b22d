//! What the Rust uses of nalgebra, for machines where Debian's can't be had.

use std::ops::{Index, IndexMut};

pub struct DMatrix<T> {
    rows: usize,
    columns: usize,
    entries: Vec<T>,
}

impl DMatrix<f64> {
    pub fn zeros(rows: usize, columns: usize) -> Self {
        Self { rows, columns, entries: vec![0.0; rows * columns] }
    }

    pub fn from_row_slice(rows: usize, columns: usize, entries: &[f64]) -> Self {
        assert_eq!(entries.len(), rows * columns);
        Self { rows, columns, entries: entries.to_vec() }
    }

    pub fn nrows(&self) -> usize {
        self.rows
    }

    pub fn ncols(&self) -> usize {
        self.columns
    }
}

impl Index<(usize, usize)> for DMatrix<f64> {
    type Output = f64;

    fn index(&self, (row, column): (usize, usize)) -> &f64 {
        assert!(row < self.rows && column < self.columns);
        &self.entries[row * self.columns + column]
    }
}

impl IndexMut<(usize, usize)> for DMatrix<f64> {
    fn index_mut(&mut self, (row, column): (usize, usize)) -> &mut f64 {
        assert!(row < self.rows && column < self.columns);
        &mut self.entries[row * self.columns + column]
    }
}
