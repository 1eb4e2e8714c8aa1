//! Stand-in for `ndarray`: vectors and matrices of doubles, as far as the six files use them.
//!
//! Every sum and every dot product runs left to right from 0.0 and rounds each product and each
//! sum once. Matrices are always row by row, so a row is a slice. Where the left side of an
//! operator is owned, its memory takes the result, as in the library.

use std::ops::{Add, DivAssign, Index, IndexMut, Mul, Sub};

/// Number of an axis, for `insert_axis`.
pub struct Axis(pub usize);

/// A vector that owns its numbers.
#[derive(Clone, Debug, PartialEq)]
pub struct Array1<A> {
    data: Vec<A>,
}

/// A matrix that owns its numbers, row by row.
#[derive(Clone, Debug, PartialEq)]
pub struct Array2<A> {
    shape: [usize; 2],
    data: Vec<A>,
}

/// A row lent for reading.
pub struct ArrayView1<'a, A> {
    data: &'a [A],
}

/// A row lent for writing.
pub struct ArrayViewMut1<'a, A> {
    data: &'a mut [A],
}

/// A column lent for reading: what `insert_axis(Axis(1))` makes of a vector.
pub struct ArrayView2<'a, A> {
    column: &'a [A],
}

/// What `as_standard_layout` answers: the matrix itself, lent.
pub struct CowArray2<'a, A> {
    lent: &'a Array2<A>,
}

/// Left to right from 0.0, one rounding per product and one per sum.
#[inline]
fn dot(a: &[f64], b: &[f64]) -> f64 {
    assert_eq!(a.len(), b.len(), "dot product of unequal lengths");
    let mut sum = 0.0;
    for (x, y) in a.iter().zip(b) {
        sum += x * y;
    }
    sum
}

/// Left to right from 0.0.
#[inline]
fn sum(values: &[f64]) -> f64 {
    let mut sum = 0.0;
    for value in values {
        sum += value;
    }
    sum
}

/// `left[i] = f(left[i], right[i])` for every i.
#[inline]
fn update(left: &mut [f64], right: &[f64], f: impl Fn(f64, f64) -> f64) {
    assert_eq!(left.len(), right.len(), "operands of unequal lengths");
    for (x, y) in left.iter_mut().zip(right) {
        *x = f(*x, *y);
    }
}

impl Array1<f64> {
    #[inline]
    pub fn zeros(len: usize) -> Self {
        Self { data: vec![0.0; len] }
    }

    #[inline]
    pub fn len(&self) -> usize {
        self.data.len()
    }

    #[inline]
    pub fn is_empty(&self) -> bool {
        self.data.is_empty()
    }

    #[inline]
    pub fn iter(&self) -> std::slice::Iter<'_, f64> {
        self.data.iter()
    }

    #[inline]
    pub fn dot(&self, other: &Self) -> f64 {
        dot(&self.data, &other.data)
    }

    #[inline]
    pub fn sum(&self) -> f64 {
        sum(&self.data)
    }

    #[inline]
    pub fn assign(&mut self, other: &Self) {
        self.data.copy_from_slice(&other.data);
    }

    #[inline]
    pub fn mapv_inplace(&mut self, mut f: impl FnMut(f64) -> f64) {
        for value in &mut self.data {
            *value = f(*value);
        }
    }

    #[inline]
    pub fn view(&self) -> ArrayView1<'_, f64> {
        ArrayView1 { data: &self.data }
    }

    #[inline]
    pub fn to_vec(&self) -> Vec<f64> {
        self.data.clone()
    }
}

impl From<Vec<f64>> for Array1<f64> {
    #[inline]
    fn from(data: Vec<f64>) -> Self {
        Self { data }
    }
}

impl Index<usize> for Array1<f64> {
    type Output = f64;

    #[inline]
    fn index(&self, i: usize) -> &f64 {
        &self.data[i]
    }
}

impl IndexMut<usize> for Array1<f64> {
    #[inline]
    fn index_mut(&mut self, i: usize) -> &mut f64 {
        &mut self.data[i]
    }
}

impl<'a> ArrayView1<'a, f64> {
    #[inline]
    pub fn dot(&self, other: &ArrayView1<'_, f64>) -> f64 {
        dot(self.data, other.data)
    }

    #[inline]
    pub fn iter(&self) -> std::slice::Iter<'_, f64> {
        self.data.iter()
    }

    #[inline]
    pub fn insert_axis(self, axis: Axis) -> ArrayView2<'a, f64> {
        assert_eq!(axis.0, 1, "only columns are made here");
        ArrayView2 { column: self.data }
    }
}

impl ArrayViewMut1<'_, f64> {
    #[inline]
    pub fn assign(&mut self, other: &Array1<f64>) {
        self.data.copy_from_slice(&other.data);
    }
}

impl Array2<f64> {
    #[inline]
    pub fn zeros(shape: (usize, usize)) -> Self {
        Self { shape: [shape.0, shape.1], data: vec![0.0; shape.0 * shape.1] }
    }

    /// The numbers row by row; the shape and their count must agree.
    #[inline]
    pub fn from_rows(shape: (usize, usize), data: Vec<f64>) -> Self {
        assert_eq!(shape.0 * shape.1, data.len(), "shape and numbers disagree");
        Self { shape: [shape.0, shape.1], data }
    }

    #[inline]
    pub fn shape(&self) -> &[usize] {
        &self.shape
    }

    #[inline]
    pub fn nrows(&self) -> usize {
        self.shape[0]
    }

    #[inline]
    pub fn ncols(&self) -> usize {
        self.shape[1]
    }

    #[inline]
    pub fn iter(&self) -> std::slice::Iter<'_, f64> {
        self.data.iter()
    }

    #[inline]
    pub fn row(&self, i: usize) -> ArrayView1<'_, f64> {
        let k = self.shape[1];
        ArrayView1 { data: &self.data[i * k..(i + 1) * k] }
    }

    #[inline]
    pub fn row_mut(&mut self, i: usize) -> ArrayViewMut1<'_, f64> {
        let k = self.shape[1];
        ArrayViewMut1 { data: &mut self.data[i * k..(i + 1) * k] }
    }

    #[inline]
    pub fn rows(&self) -> Vec<ArrayView1<'_, f64>> {
        (0..self.shape[0]).map(|i| self.row(i)).collect()
    }

    /// Matrix times vector: one dot product per row.
    #[inline]
    pub fn dot(&self, x: &Array1<f64>) -> Array1<f64> {
        let rows = 0..self.shape[0];
        Array1 { data: rows.map(|i| dot(self.row(i).data, &x.data)).collect() }
    }

    #[inline]
    pub fn is_standard_layout(&self) -> bool {
        true
    }

    #[inline]
    pub fn as_standard_layout(&self) -> CowArray2<'_, f64> {
        CowArray2 { lent: self }
    }

    #[inline]
    pub fn as_slice_mut(&mut self) -> Option<&mut [f64]> {
        Some(&mut self.data)
    }

    #[inline]
    pub fn as_slice_memory_order_mut(&mut self) -> Option<&mut [f64]> {
        Some(&mut self.data)
    }

    #[inline]
    pub fn to_vec(&self) -> Vec<f64> {
        self.data.clone()
    }
}

impl CowArray2<'_, f64> {
    #[inline]
    pub fn into_owned(self) -> Array2<f64> {
        self.lent.clone()
    }
}

impl Index<[usize; 2]> for Array2<f64> {
    type Output = f64;

    #[inline]
    fn index(&self, at: [usize; 2]) -> &f64 {
        assert!(at[1] < self.shape[1], "column out of range");
        &self.data[at[0] * self.shape[1] + at[1]]
    }
}

impl IndexMut<[usize; 2]> for Array2<f64> {
    #[inline]
    fn index_mut(&mut self, at: [usize; 2]) -> &mut f64 {
        assert!(at[1] < self.shape[1], "column out of range");
        &mut self.data[at[0] * self.shape[1] + at[1]]
    }
}

// Operators on vectors.

impl Add<Array1<f64>> for Array1<f64> {
    type Output = Array1<f64>;

    #[inline]
    fn add(mut self, right: Array1<f64>) -> Array1<f64> {
        update(&mut self.data, &right.data, |x, y| x + y);
        self
    }
}

impl Add<&Array1<f64>> for Array1<f64> {
    type Output = Array1<f64>;

    #[inline]
    fn add(mut self, right: &Array1<f64>) -> Array1<f64> {
        update(&mut self.data, &right.data, |x, y| x + y);
        self
    }
}

impl Sub<Array1<f64>> for &ArrayView1<'_, f64> {
    type Output = Array1<f64>;

    #[inline]
    fn sub(self, mut right: Array1<f64>) -> Array1<f64> {
        update(&mut right.data, self.data, |y, x| x - y);
        right
    }
}

impl Mul<Array1<f64>> for f64 {
    type Output = Array1<f64>;

    #[inline]
    fn mul(self, mut right: Array1<f64>) -> Array1<f64> {
        right.mapv_inplace(|y| self * y);
        right
    }
}

impl Mul<&Array1<f64>> for f64 {
    type Output = Array1<f64>;

    #[inline]
    fn mul(self, right: &Array1<f64>) -> Array1<f64> {
        Array1 { data: right.iter().map(|y| self * y).collect() }
    }
}

impl Mul<&ArrayView1<'_, f64>> for f64 {
    type Output = Array1<f64>;

    #[inline]
    fn mul(self, right: &ArrayView1<'_, f64>) -> Array1<f64> {
        Array1 { data: right.iter().map(|y| self * y).collect() }
    }
}

impl DivAssign<f64> for Array1<f64> {
    #[inline]
    fn div_assign(&mut self, right: f64) {
        self.mapv_inplace(|x| x / right);
    }
}

// Operators on matrices.

impl Add<Array2<f64>> for &Array2<f64> {
    type Output = Array2<f64>;

    #[inline]
    fn add(self, mut right: Array2<f64>) -> Array2<f64> {
        assert_eq!(self.shape, right.shape, "shapes disagree");
        update(&mut right.data, &self.data, |y, x| x + y);
        right
    }
}

impl Sub<Array2<f64>> for &Array2<f64> {
    type Output = Array2<f64>;

    #[inline]
    fn sub(self, mut right: Array2<f64>) -> Array2<f64> {
        assert_eq!(self.shape, right.shape, "shapes disagree");
        update(&mut right.data, &self.data, |y, x| x - y);
        right
    }
}

impl Sub<Array2<f64>> for Array2<f64> {
    type Output = Array2<f64>;

    #[inline]
    fn sub(mut self, right: Array2<f64>) -> Array2<f64> {
        assert_eq!(self.shape, right.shape, "shapes disagree");
        update(&mut self.data, &right.data, |x, y| x - y);
        self
    }
}

impl Mul<Array2<f64>> for f64 {
    type Output = Array2<f64>;

    #[inline]
    fn mul(self, mut right: Array2<f64>) -> Array2<f64> {
        for value in &mut right.data {
            *value *= self;
        }
        right
    }
}

impl Mul<&Array2<f64>> for f64 {
    type Output = Array2<f64>;

    #[inline]
    fn mul(self, right: &Array2<f64>) -> Array2<f64> {
        Array2 { shape: right.shape, data: right.iter().map(|y| self * y).collect() }
    }
}

impl Mul<&Array2<f64>> for &ArrayView2<'_, f64> {
    type Output = Array2<f64>;

    /// The column, spread over all columns of the matrix, times the matrix, element by element.
    #[inline]
    fn mul(self, right: &Array2<f64>) -> Array2<f64> {
        assert_eq!(self.column.len(), right.nrows(), "shapes disagree");
        let mut out = right.clone();
        for (i, x) in self.column.iter().enumerate() {
            for j in 0..right.ncols() {
                out[[i, j]] = x * right[[i, j]];
            }
        }
        out
    }
}
