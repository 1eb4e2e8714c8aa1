//! Wagons that may not move (02, Note 1): the job without them. Its table is made by the Rust's
//! `from_principal_submatrix`, the choice of all wagons by its `lift_solution`, the constant by its
//! `eval_qubo_objective`; the costs of the free wagons are the harness's own.

use crate::job::Job;
use crate::sdp_solver::{eval_qubo_objective, ReducedProblem};
use crate::table::{linear, Table};
use ndarray::Array1;

/// What was taken out of a job.
pub struct Held {
    problem: ReducedProblem,
    /// The pinned wagons' own cost, in whole units.
    pub constant: f64,
}

/// The job on the free wagons alone, and what was taken out of it.
pub fn without_pins(job: &Job) -> (Job, Held) {
    let store = |i: usize| job.pins.iter().find(|pin| pin.0 == i).map(|pin| pin.1);
    let free: Vec<usize> = (0..job.h.size).filter(|&i| store(i).is_none()).collect();
    let c: Vec<i64> =
        free.iter().map(|&i| job.c[i] + row_sum(&job.h, i, |j| store(j) == Some(1))).collect();
    let fixed = job.pins.iter().map(|pin| (pin.0, f64::from(pin.1))).collect();
    let problem = ReducedProblem::from_principal_submatrix(&job.h.matrix(8.0), free, fixed);
    let h = Table::of_matrix(&problem.reduced_q);
    let constant = full_cost(job, &problem.lift_solution(&Array1::zeros(h.size)));
    let reduced = Job { h, c, pins: Vec::new(), ..job.clone() };
    if job.pins.is_empty() {
        assert_eq!((&reduced.h, &reduced.c), (&job.h, &job.c), "no pin changes nothing");
    }
    (reduced, Held { problem, constant })
}

/// The sum of row i's entries in the columns asked for.
pub fn row_sum(h: &Table, i: usize, asked: impl Fn(usize) -> bool) -> i64 {
    h.entries.iter().filter(|e| e.row == i && asked(e.col)).map(|e| e.value).sum()
}

/// The cost of a choice of all the job's wagons, in whole units.
pub fn full_cost(job: &Job, choice: &Array1<f64>) -> f64 {
    eval_qubo_objective(&job.h.matrix(1.0), &linear(&job.c), choice)
}

impl Held {
    /// The choice of all wagons, the pinned ones in their stores.
    pub fn lifted(&self, choice: &Array1<f64>) -> Array1<f64> {
        self.problem.lift_solution(choice)
    }

    /// The wagons that aren't pinned.
    pub fn free(&self) -> &[usize] {
        &self.problem.variable_map
    }
}
