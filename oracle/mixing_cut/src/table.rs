//! Tables as lists of entries, and the matrices that the Rust takes.

use crate::sdp_solver::{absorb_linear_terms_into_hessian, qubo_hessian_to_sign_matrix};
use crate::words::Out;
use ndarray::Array1;
use sprs::CsMat;

#[derive(Clone, Copy, Debug, PartialEq)]
pub struct Entry {
    pub row: usize,
    pub col: usize,
    pub value: i64,
}

/// Entries of a square table in rising order of row, then column.
#[derive(Clone, Debug, PartialEq)]
pub struct Table {
    pub size: usize,
    pub entries: Vec<Entry>,
}

impl Table {
    /// The matrix of the values, each divided by `unit` (1.0, or 8.0 for eighths).
    pub fn matrix(&self, unit: f64) -> CsMat<f64> {
        let mut starts = vec![0; self.size + 1];
        for entry in &self.entries {
            starts[entry.row + 1] += 1;
        }
        for i in 0..self.size {
            starts[i + 1] += starts[i];
        }
        let columns = self.entries.iter().map(|e| e.col).collect();
        let values = self.entries.iter().map(|e| e.value as f64 / unit).collect();
        CsMat::new((self.size, self.size), starts, columns, values)
    }

    /// The matrix's entries in eighths.
    pub fn of_matrix(q: &CsMat<f64>) -> Self {
        let entry = |(&value, (row, col))| Entry { row, col, value: eighths(value) };
        Self { size: q.rows(), entries: q.iter().map(entry).collect() }
    }

    /// Prints count, then row, column and value of each entry.
    pub fn put(&self, out: &mut Out) {
        out.count(self.entries.len());
        for entry in &self.entries {
            out.count(entry.row);
            out.count(entry.col);
            out.whole(entry.value);
        }
    }

    /// Diagonal entries less the absolute values of all others: 01's floor, of a table in eighths.
    pub fn floor(&self) -> i64 {
        self.entries.iter().map(|e| if e.row == e.col { e.value } else { -e.value.abs() }).sum()
    }
}

/// A value in eighths; it must be a whole number of them.
pub fn eighths(value: f64) -> i64 {
    let scaled = value * 8.0;
    assert!(
        scaled.trunc() == scaled && scaled.abs() <= 2f64.powi(53),
        "{value} is no whole number of eighths"
    );
    scaled as i64
}

/// The costs c as the Rust takes them.
pub fn linear(c: &[i64]) -> Array1<f64> {
    Array1::from(c.iter().map(|&value| value as f64).collect::<Vec<_>>())
}

/// The sign matrix of H and c, made by the Rust.
pub fn sign_matrix(h: &Table, c: &[i64]) -> CsMat<f64> {
    let absorbed = absorb_linear_terms_into_hessian(&h.matrix(1.0), &linear(c));
    qubo_hessian_to_sign_matrix(&absorbed)
}

/// Signs as the Rust takes them: 0 is +, everything else −.
pub fn signs(bytes: &[u8]) -> Array1<f64> {
    let sign = |&byte: &u8| if byte == 0 { 1.0 } else { -1.0 };
    Array1::from(bytes.iter().map(sign).collect::<Vec<_>>())
}

/// Signs as bytes: + is 0, − is 1.
pub fn sign_bytes(signs: &Array1<f64>) -> Vec<u8> {
    let byte = |&sign: &f64| match sign {
        1.0 => 0,
        -1.0 => 1,
        _ => panic!("{sign} is no sign"),
    };
    signs.iter().map(byte).collect()
}

/// A choice as bytes.
pub fn choice_bytes(choice: &Array1<f64>) -> Vec<u8> {
    let byte = |&b: &f64| match b {
        0.0 => 0,
        1.0 => 1,
        _ => panic!("{b} is no choice"),
    };
    choice.iter().map(byte).collect()
}
