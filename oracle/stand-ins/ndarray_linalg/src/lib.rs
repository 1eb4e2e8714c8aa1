//! Stand-in for `ndarray-linalg`: the norm of a vector or matrix, the division of rows by their
//! norms, and names that the dual bound needs to type-check. No LAPACK stands behind it.

use ndarray::{Array1, Array2};

pub use norm::NormalizeAxis;

/// The root of the sum of squares, which runs left to right from 0.0.
pub trait Norm {
    fn norm_l2(&self) -> f64;
}

#[inline]
fn norm_l2<'a>(values: impl Iterator<Item = &'a f64>) -> f64 {
    let mut sum = 0.0;
    for value in values {
        sum += value * value;
    }
    f64::sqrt(sum)
}

impl Norm for Array1<f64> {
    #[inline]
    fn norm_l2(&self) -> f64 {
        norm_l2(self.iter())
    }
}

impl Norm for Array2<f64> {
    #[inline]
    fn norm_l2(&self) -> f64 {
        norm_l2(self.iter())
    }
}

pub mod norm {
    use ndarray::Array2;

    pub enum NormalizeAxis {
        Row,
    }

    /// Divides each element of a row by the row's norm, whatever that norm is.
    #[inline]
    pub fn normalize(mut m: Array2<f64>, axis: NormalizeAxis) -> (Array2<f64>, Vec<f64>) {
        let NormalizeAxis::Row = axis;
        let mut norms = Vec::with_capacity(m.nrows());
        for i in 0..m.nrows() {
            let norm = crate::norm_l2(m.row(i).iter());
            for j in 0..m.ncols() {
                m[[i, j]] /= norm;
            }
            norms.push(norm);
        }
        (m, norms)
    }
}

/// Which triangle LAPACK reads.
pub enum UPLO {
    Upper,
}

/// What `square_layout` answers.
pub struct MatrixLayout;

/// That there is no LAPACK here, or that a matrix is not square.
#[derive(Debug)]
pub struct LinalgError;

pub trait AllocatedArray {
    fn square_layout(&self) -> Result<MatrixLayout, LinalgError>;
}

impl AllocatedArray for Array2<f64> {
    #[inline]
    fn square_layout(&self) -> Result<MatrixLayout, LinalgError> {
        if self.nrows() == self.ncols() {
            Ok(MatrixLayout)
        } else {
            Err(LinalgError)
        }
    }
}

pub trait Lapack: Sized {
    fn eigh(
        vectors: bool,
        layout: MatrixLayout,
        triangle: UPLO,
        matrix: &mut [Self],
    ) -> Result<Vec<Self>, LinalgError>;
}

impl Lapack for f64 {
    /// Always an error: the dual bound is left behind.
    #[inline]
    fn eigh(_: bool, _: MatrixLayout, _: UPLO, _: &mut [f64]) -> Result<Vec<f64>, LinalgError> {
        Err(LinalgError)
    }
}
