//! Stand-in for `sprs`: compressed rows, each row's entries in rising order of column.
//!
//! A product runs over a row's entries by column, from 0.0, one rounding per product and per sum.
//! Triplets at one place are summed in the order in which they came; zeros stay stored.

use ndarray::{Array1, Array2};
use std::ops::Mul;

/// A matrix held by rows.
#[derive(Clone, Debug)]
pub struct CsMat<N> {
    shape: (usize, usize),
    starts: Vec<usize>,
    columns: Vec<usize>,
    values: Vec<N>,
}

/// One row of a matrix.
pub struct CsVecView<'a, N> {
    columns: &'a [usize],
    values: &'a [N],
}

/// Triplets in the order in which they came.
pub struct TriMat<N> {
    shape: (usize, usize),
    triplets: Vec<(usize, usize, N)>,
}

impl<N> CsVecView<'_, N> {
    /// Column and value of each entry.
    #[inline]
    pub fn iter(&self) -> impl Iterator<Item = (usize, &N)> + '_ {
        self.columns.iter().copied().zip(self.values)
    }
}

impl<N: Clone> CsMat<N> {
    /// Row starts, columns and values; rows out of order are an error.
    #[inline]
    pub fn new(
        shape: (usize, usize),
        starts: Vec<usize>,
        columns: Vec<usize>,
        values: Vec<N>,
    ) -> Self {
        assert_eq!(starts.len(), shape.0 + 1, "one start per row and the end");
        assert_eq!(starts[0], 0, "the first row starts at 0");
        assert_eq!(starts[shape.0], values.len(), "the last row ends at the end");
        assert_eq!(columns.len(), values.len(), "one column per value");
        for i in 0..shape.0 {
            let row = &columns[starts[i]..starts[i + 1]];
            assert!(row.windows(2).all(|w| w[0] < w[1]), "columns must rise");
            assert!(row.iter().all(|&j| j < shape.1), "column out of range");
        }
        Self { shape, starts, columns, values }
    }

    #[inline]
    pub fn shape(&self) -> (usize, usize) {
        self.shape
    }

    #[inline]
    pub fn rows(&self) -> usize {
        self.shape.0
    }

    #[inline]
    pub fn cols(&self) -> usize {
        self.shape.1
    }

    /// Stored entries, zeros included.
    #[inline]
    pub fn nnz(&self) -> usize {
        self.values.len()
    }

    #[inline]
    pub fn is_csr(&self) -> bool {
        true
    }

    #[inline]
    pub fn to_csr(&self) -> Self {
        self.clone()
    }

    #[inline]
    pub fn get(&self, i: usize, j: usize) -> Option<&N> {
        let range = self.starts[i]..self.starts[i + 1];
        let at = self.columns[range.clone()].binary_search(&j).ok()?;
        Some(&self.values[range.start + at])
    }

    #[inline]
    fn row(&self, i: usize) -> CsVecView<'_, N> {
        let range = self.starts[i]..self.starts[i + 1];
        CsVecView { columns: &self.columns[range.clone()], values: &self.values[range] }
    }

    #[inline]
    pub fn outer_view(&self, i: usize) -> Option<CsVecView<'_, N>> {
        (i < self.shape.0).then(|| self.row(i))
    }

    #[inline]
    pub fn outer_iterator(&self) -> impl Iterator<Item = CsVecView<'_, N>> + '_ {
        (0..self.shape.0).map(|i| self.row(i))
    }

    #[inline]
    pub fn iter(&self) -> Entries<'_, N> {
        Entries { matrix: self, row: 0, at: 0 }
    }
}

/// The entries of a matrix in rising order of row, then column.
pub struct Entries<'a, N> {
    matrix: &'a CsMat<N>,
    row: usize,
    at: usize,
}

impl<'a, N> Iterator for Entries<'a, N> {
    type Item = (&'a N, (usize, usize));

    #[inline]
    fn next(&mut self) -> Option<Self::Item> {
        let value = self.matrix.values.get(self.at)?;
        while self.matrix.starts[self.row + 1] <= self.at {
            self.row += 1;
        }
        let place = (self.row, self.matrix.columns[self.at]);
        self.at += 1;
        Some((value, place))
    }
}

impl<'a, N: Clone> IntoIterator for &'a CsMat<N> {
    type Item = (&'a N, (usize, usize));
    type IntoIter = Entries<'a, N>;

    #[inline]
    fn into_iter(self) -> Entries<'a, N> {
        self.iter()
    }
}

impl CsMat<f64> {
    #[inline]
    pub fn to_dense(&self) -> Array2<f64> {
        let mut dense = Array2::<f64>::zeros(self.shape);
        for (&value, (i, j)) in self {
            dense[[i, j]] = value;
        }
        dense
    }
}

impl TriMat<f64> {
    #[inline]
    pub fn new(shape: (usize, usize)) -> Self {
        Self { shape, triplets: Vec::new() }
    }

    #[inline]
    pub fn add_triplet(&mut self, i: usize, j: usize, value: f64) {
        assert!(i < self.shape.0 && j < self.shape.1, "triplet out of range");
        self.triplets.push((i, j, value));
    }

    /// Sums what stands at one place, from 0.0 in the order in which it came.
    #[inline]
    pub fn to_csr(&self) -> CsMat<f64> {
        let mut triplets = self.triplets.clone();
        triplets.sort_by_key(|&(i, j, _)| (i, j));
        let mut starts = vec![0; self.shape.0 + 1];
        let mut columns = Vec::new();
        let mut values: Vec<f64> = Vec::new();
        let mut last = None;
        for (i, j, value) in triplets {
            if last != Some((i, j)) {
                columns.push(j);
                values.push(0.0);
                last = Some((i, j));
            }
            *values.last_mut().expect("a place was just made") += value;
            starts[i + 1] = values.len();
        }
        for i in 0..self.shape.0 {
            starts[i + 1] = starts[i + 1].max(starts[i]);
        }
        CsMat::new(self.shape, starts, columns, values)
    }
}

impl Mul<&Array1<f64>> for &CsMat<f64> {
    type Output = Array1<f64>;

    #[inline]
    fn mul(self, x: &Array1<f64>) -> Array1<f64> {
        assert_eq!(self.cols(), x.len(), "shapes disagree");
        let mut out = Array1::<f64>::zeros(self.rows());
        for i in 0..self.rows() {
            let mut sum = 0.0;
            for (j, value) in self.row(i).iter() {
                sum += value * x[j];
            }
            out[i] = sum;
        }
        out
    }
}

impl Mul<&Array2<f64>> for &CsMat<f64> {
    type Output = Array2<f64>;

    #[inline]
    fn mul(self, factor: &Array2<f64>) -> Array2<f64> {
        assert_eq!(self.cols(), factor.nrows(), "shapes disagree");
        let rank = factor.ncols();
        let mut out = vec![0.0; self.rows() * rank];
        for i in 0..self.rows() {
            let sums = &mut out[i * rank..(i + 1) * rank];
            for (j, value) in self.row(i).iter() {
                for (sum, element) in sums.iter_mut().zip(factor.row(j).iter()) {
                    *sum += value * element;
                }
            }
        }
        Array2::from_rows((self.rows(), rank), out)
    }
}
