//! Stands inside the module `sdp_solver`, beside its unchanged text, and lends out functions that
//! are private there. Nothing is computed here.

use super::{CsMat, SolveOptions, WarmStart};
use ndarray::{Array1, Array2};

pub fn resolve_rank(q: &CsMat<f64>, options: &SolveOptions) -> usize {
    super::resolve_rank(q, options)
}

pub fn separate_diagonal(q: &CsMat<f64>) -> (CsMat<f64>, Array1<f64>) {
    let (work, diagonal) = super::separate_diagonal(q);
    (work.into_owned(), diagonal)
}

pub fn prepare_initial_factor(
    q: &CsMat<f64>,
    rank: usize,
    seed: Option<u64>,
    warm_start: &WarmStart,
    perturb_signs: bool,
) -> Array2<f64> {
    super::prepare_initial_factor(q, rank, seed, warm_start, perturb_signs)
}

pub fn stationarity_residual(qv: &Array2<f64>, v: &Array2<f64>, dual: &Array1<f64>) -> f64 {
    super::stationarity_residual_from_qv_with_dual(qv, v, dual)
}

pub fn frobenius_norm(matrix: &Array2<f64>) -> f64 {
    super::frobenius_norm(matrix)
}
