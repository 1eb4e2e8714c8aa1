//! The made-up reduced problem of the timings.

use crate::problem::SplitMix;
use crate::table::{Entry, Table};
use crate::words::Out;

/// A table in eighths, the map, the fixed indices with their values, and a solution over the map.
pub struct Reduced {
    pub table: Table,
    pub map: Vec<usize>,
    pub fixed: Vec<usize>,
    pub fixed_values: Vec<f64>,
    pub solution: Vec<f64>,
}

const SEED: u64 = 1;
const SIZE: usize = 1024;
const PAIRS: u64 = 1727;
const MAPPED: usize = 512;
const FIXED: usize = 256;

impl Reduced {
    /// The diagonal and both places of each pair, 4,478 entries. Pairs (i, j), i < j, are chosen as
    /// in a hall, each with its cost; then the diagonal, a cost each. The indices from 0 up are
    /// shuffled: k from 0, each exchanged with k plus the next number modulo those left. The first
    /// 512 are the map, the next 256 fixed. Then a sign for each fixed index, − where the number is
    /// odd, and the solution.
    pub fn made() -> Self {
        let mut random = SplitMix::new(SEED);
        let mut entries = Vec::new();
        for (row, col, value) in random.pairs(SIZE, PAIRS) {
            entries.push(Entry { row, col, value });
            entries.push(Entry { row: col, col: row, value });
        }
        for row in 0..SIZE {
            entries.push(Entry { row, col: row, value: random.cost() });
        }
        entries.sort_by_key(|e| (e.row, e.col));
        let mut indices: Vec<usize> = (0..SIZE).collect();
        for k in 0..SIZE {
            let left = (SIZE - k) as u64;
            indices.swap(k, k + (random.next() % left) as usize);
        }
        let sign = |random: &mut SplitMix| if random.next() % 2 == 0 { 1.0 } else { -1.0 };
        Self {
            table: Table { size: SIZE, entries },
            map: indices[..MAPPED].to_vec(),
            fixed: indices[MAPPED..MAPPED + FIXED].to_vec(),
            fixed_values: (0..FIXED).map(|_| sign(&mut random)).collect(),
            solution: random.numbers(MAPPED),
        }
    }

    /// Prints the table, MAP, FIXED, FIXEDVALUES and REDUCED, as `submatrix` and `lift` take them.
    pub fn put(&self, out: &mut Out) {
        out.count(self.table.size);
        self.table.put(out);
        out.counts(self.map.iter().copied());
        out.counts(self.fixed.iter().copied());
        out.doubles(&self.fixed_values);
        out.doubles(&self.solution);
    }
}
