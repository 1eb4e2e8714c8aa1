//! At most k wagons moved (02, Note 13): levels of the Rust's `get_improving_children`, sorted and cut
//! as `beam_search` does it; a child whose anchor moved, or that lies farther than k from the present
//! choice, is dropped.

use crate::sdp_solver::{eval_qubo_objective, qubo_binary_from_sign_solution};
use crate::search::levels_keeping;
use crate::table::{choice_bytes, eighths, linear, sign_matrix, signs, Table};

/// The choice, its cost in eighths, the rounds.
pub fn limited(h: &Table, c: &[i64], k: usize, width: usize, present: &[u8]) -> (Vec<u8>, i64, usize) {
    let n = present.len();
    let start = signs(&[present, &[0]].concat());
    let moved = |x: &[f64]| x.iter().zip(start.iter()).filter(|(a, b)| a != b).count();
    let found = levels_keeping(&sign_matrix(h, c), width, &start, |child| {
        let child = child.to_vec();
        child[n] == start[n] && moved(&child[..n]) <= k
    });
    let b = qubo_binary_from_sign_solution(&found.signs);
    let cost = eighths(eval_qubo_objective(&h.matrix(1.0), &linear(c), &b));
    assert_eq!(eighths(found.objective), cost, "the cost is the choice's own");
    (choice_bytes(&b), cost, found.levels.len())
}
