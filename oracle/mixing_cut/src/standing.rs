//! The rows that a sweep under rule 3 or 4 leaves as they were, read off the unchanged Rust, which
//! doesn't tell them.

use crate::step_rules::{apply_step, StepRule};
use ndarray::Array2;
use sprs::CsMat;

/// Stands in every place of a row that is asked about: it has no part in that row's gradient, and
/// no row that is written comes out so.
const MARK: f64 = 12345.5;

/// How many rows the sweep from `factor` to `swept` left. Row by row, with a table that has that
/// row alone (all others then have a norm of 0 and stay): once with marks in the row, which remain
/// where it is left, and once as it is. After the last row the factor is the whole sweep's.
pub fn rows_left(
    work: &CsMat<f64>,
    factor: &Array2<f64>,
    rule: StepRule,
    swept: &Array2<f64>,
) -> u64 {
    let mut at = factor.clone();
    let mut left = 0;
    for i in 0..factor.nrows() {
        let row = only_row(work, i);
        let after = apply_step(&row, marked(&at, i), rule);
        left += u64::from(after.row(i).iter().all(|x| x.to_bits() == MARK.to_bits()));
        at = apply_step(&row, at, rule);
    }
    let same = |(a, b): (&f64, &f64)| a.to_bits() == b.to_bits() || (a.is_nan() && b.is_nan());
    assert!(at.iter().zip(swept.iter()).all(same), "row by row the sweep ends elsewhere");
    left
}

/// The table with the entries of row i alone.
fn only_row(work: &CsMat<f64>, i: usize) -> CsMat<f64> {
    let (columns, values): (Vec<_>, Vec<_>) =
        work.outer_view(i).expect("the row is there").iter().map(|(k, &v)| (k, v)).unzip();
    let starts = (0..=work.rows()).map(|k| if k <= i { 0 } else { columns.len() }).collect();
    CsMat::new(work.shape(), starts, columns, values)
}

fn marked(factor: &Array2<f64>, i: usize) -> Array2<f64> {
    let rank = factor.ncols();
    let mut numbers = factor.to_vec();
    numbers[i * rank..(i + 1) * rank].fill(MARK);
    Array2::from_rows((factor.nrows(), rank), numbers)
}
