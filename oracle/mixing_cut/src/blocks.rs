//! By block, then the house (02, Note 6), on the Rust's own functions: `from_principal_submatrix`,
//! the sign matrix, `beam_search`, the decoding, `lift_solution`. What the others add to a free
//! wagon's cost is the harness's own.

use crate::maxcut_oracle::obj_rounded;
use crate::pinned::row_sum;
use crate::sdp_local_search::beam_search;
use crate::sdp_solver::{eval_qubo_objective, qubo_binary_from_sign_solution, ReducedProblem};
use crate::table::{choice_bytes, eighths, linear, sign_matrix, signs, Table};
use ndarray::Array1;

/// H, c, the width of a search, the pins.
pub struct House {
    pub h: Table,
    pub c: Vec<i64>,
    pub width: usize,
    pub pins: Vec<(usize, u8)>,
}

impl House {
    /// Each block in turn from the present choice, the pinned wagons in their stores, and then all
    /// that aren't pinned: the last choice, and each block's fall in eighths.
    pub fn clear(&self, present: &[u8], blocks: &[Vec<usize>]) -> (Vec<u8>, Vec<i64>) {
        let mut b = present.to_vec();
        for &(wagon, store) in &self.pins {
            b[wagon] = store;
        }
        let falls = blocks.iter().map(|block| self.search(block.clone(), &mut b)).collect();
        let unpinned = |i: &usize| self.pins.iter().all(|pin| pin.0 != *i);
        self.search((0..b.len()).filter(unpinned).collect(), &mut b);
        (b, falls)
    }

    /// The wagons given searched in rising order, all others held: the fall in eighths. The pins
    /// are fixed first, so that a pinned wagon among those given is fixed and mapped.
    fn search(&self, mut free: Vec<usize>, b: &mut Vec<u8>) -> i64 {
        free.sort_unstable();
        let moves = |i: usize| free.binary_search(&i).is_ok();
        let held = (0..b.len()).filter(|&i| !moves(i)).map(|i| (i, b[i]));
        let fixed = self.pins.iter().copied().chain(held).map(|(i, store)| (i, f64::from(store)));
        let beside = |i: usize| row_sum(&self.h, i, |j| !moves(j) && b[j] == 1);
        let c: Vec<i64> = free.iter().map(|&i| self.c[i] + beside(i)).collect();
        let start: Vec<u8> = free.iter().map(|&i| b[i]).chain([0]).collect();
        let problem = ReducedProblem::from_principal_submatrix(
            &self.h.matrix(8.0),
            free.clone(),
            fixed.collect(),
        );
        let q = sign_matrix(&Table::of_matrix(&problem.reduced_q), &c);
        let start = signs(&start);
        let before = eighths(obj_rounded(&q, &start));
        let (objective, found) = beam_search(&q, self.width, vec![start]);
        let fall = before - eighths(objective);
        let lifted = problem.lift_solution(&qubo_binary_from_sign_solution(&found));
        let next = choice_bytes(&lifted);
        assert_eq!(self.cost(b) - self.cost(&next), fall, "the full cost falls by the fall");
        *b = next;
        fall
    }

    fn cost(&self, b: &[u8]) -> i64 {
        let b = Array1::from(b.iter().map(|&x| f64::from(x)).collect::<Vec<_>>());
        eighths(eval_qubo_objective(&self.h.matrix(1.0), &linear(&self.c), &b))
    }
}
