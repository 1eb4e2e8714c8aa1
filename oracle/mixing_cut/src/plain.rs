//! 01's run in steps: open, one sweep at a time, finish. Each value comes from a function of the
//! six files; only the schedule of checks and the order of the stop tests are written out here,
//! after `solve_maxcut_sdp_profiled`, whose loop can't be entered half way.

use crate::answer::{step_rule, Start, SEED};
use crate::draws::lent;
use crate::job::Settings;
use crate::maxcut_oracle::{
    compute_rounded_sol, dual_variables_with_QV, entrywise_lower_bound, obj,
};
use crate::sdp_solver::inside_solver::{
    frobenius_norm, prepare_initial_factor, separate_diagonal, stationarity_residual,
};
use crate::sdp_solver::qubo_binary_from_sign_solution;
use crate::search::search;
use crate::standing::rows_left;
use crate::step_rules::apply_step;
use crate::table::{choice_bytes, eighths, Table};
use ndarray::{Array1, Array2};
use sprs::CsMat;

#[derive(Clone, Copy, Debug, PartialEq)]
pub enum Stage {
    Open,
    Stopped,
}

/// The run record.
#[derive(Clone)]
pub struct Run {
    pub size: usize,
    pub rank: usize,
    pub rule: u8,
    /// The rule's number; 0.0 under rule 3, which has none.
    pub number: f64,
    pub sweeps: u32,
    pub last_objective: f64,
    pub objective_tolerance: f64,
    pub stationarity_tolerance: f64,
    pub minimum: u32,
    pub most: u32,
    pub stage: Stage,
    pub status: u8,
    /// Rows left as they were, over all sweeps under rules 3 and 4.
    pub standing: u64,
}

/// What a due check found.
pub struct Check {
    pub dual: Array1<f64>,
    pub residual: f64,
    pub norm: f64,
    pub threshold: f64,
    pub objective: f64,
    pub previous: f64,
    pub decision: Decision,
}

#[derive(Clone, Copy, Debug, PartialEq)]
pub enum Decision {
    GoOn,
    Stationary,
    ObjectiveTolerance,
    ObjectiveIncreased,
}

impl Decision {
    pub fn status(self) -> u8 {
        match self {
            Decision::GoOn => 0,
            Decision::Stationary | Decision::ObjectiveTolerance => 1,
            Decision::ObjectiveIncreased => 2,
        }
    }
}

/// An accepted open on the sign matrix `q`: the record and the start's factor.
pub fn open(q: &CsMat<f64>, settings: &Settings, numbers: &[f64]) -> (Run, Array2<f64>) {
    let rank = settings.resolved_rank(q.rows());
    let start = Start::new(settings, q.rows(), numbers);
    let factor = lent(start.draws, &[], || {
        prepare_initial_factor(q, rank, SEED, &start.warm, settings.most > 0)
    });
    let (work, _) = separate_diagonal(q);
    let run = Run {
        size: q.rows(),
        rank,
        rule: settings.rule,
        number: if settings.rule == 3 { 0.0 } else { settings.number },
        sweeps: 0,
        last_objective: obj(&work, &factor),
        objective_tolerance: settings.objective_tolerance,
        stationarity_tolerance: settings.stationarity_tolerance,
        minimum: settings.minimum,
        most: settings.most,
        stage: if settings.most == 0 { Stage::Stopped } else { Stage::Open },
        status: 0,
        standing: 0,
    };
    (run, factor)
}

/// One sweep over `work`, the table with its diagonal set aside, and the check if one is due.
pub fn sweep_once(
    run: &mut Run,
    work: &CsMat<f64>,
    factor: Array2<f64>,
) -> (Array2<f64>, Option<Check>) {
    assert_eq!(run.stage, Stage::Open, "only an open run sweeps");
    let rule = step_rule(run.rule, run.number);
    let before = factor.clone();
    let factor = apply_step(work, factor, rule);
    run.sweeps += 1;
    if run.rule >= 3 {
        run.standing += rows_left(work, &before, rule, &factor);
    }
    let due = run.sweeps == 1
        || run.sweeps == run.minimum
        || run.sweeps == run.most
        || run.sweeps.is_multiple_of(20);
    let check = due.then(|| check(run, work, &factor));
    if let Some(check) = &check {
        run.last_objective = check.objective;
        run.status = check.decision.status();
    }
    if run.status != 0 || run.sweeps == run.most {
        run.stage = Stage::Stopped;
    }
    (factor, check)
}

/// Multipliers over `work` without the diagonal, residual, norm of the product, new objective.
pub fn measure(work: &CsMat<f64>, factor: &Array2<f64>) -> (Array1<f64>, f64, f64, f64) {
    let qv = work * factor;
    let dual = dual_variables_with_QV(&qv, factor);
    let residual = stationarity_residual(&qv, factor, &dual);
    let norm = frobenius_norm(&qv);
    let objective = dual.sum();
    (dual, residual, norm, objective)
}

fn check(run: &Run, work: &CsMat<f64>, factor: &Array2<f64>) -> Check {
    let (dual, residual, norm, objective) = measure(work, factor);
    let threshold = run.stationarity_tolerance * norm.max(1.0);
    let previous = run.last_objective;
    let objective_tests = run.rule < 3;
    let decision = if run.sweeps >= run.minimum && residual <= threshold {
        Decision::Stationary
    } else if objective_tests && (objective - previous).abs() < run.objective_tolerance {
        Decision::ObjectiveTolerance
    } else if objective_tests && objective > previous {
        Decision::ObjectiveIncreased
    } else {
        Decision::GoOn
    };
    Check { dual, residual, norm, threshold, objective, previous, decision }
}

/// What an accepted finish gives.
pub struct Finish {
    pub relaxed_objective: f64,
    pub float_bound: f64,
    pub floor: i64,
    pub rounded: Array1<f64>,
    pub rounded_cost: i64,
    pub signs: Array1<f64>,
    pub cost: i64,
    pub levels: Vec<usize>,
    pub choice: Vec<u8>,
    pub dual_variables: Array1<f64>,
}

/// An accepted finish on the sign matrix `q`, which need not be that of the sweeps.
pub fn finish(
    run: &Run,
    q: &CsMat<f64>,
    factor: &Array2<f64>,
    width: usize,
    draw_count: usize,
    draws: &[f64],
) -> Finish {
    let (work, diagonal) = separate_diagonal(q);
    let (rounded, rounded_objective) =
        lent(&[], draws, || compute_rounded_sol(q, factor, draw_count));
    let searched = search(q, width, &rounded);
    Finish {
        relaxed_objective: run.last_objective + diagonal.sum(),
        float_bound: entrywise_lower_bound(q),
        floor: Table::of_matrix(q).floor(),
        rounded,
        rounded_cost: eighths(rounded_objective),
        cost: eighths(searched.objective),
        choice: choice_bytes(&qubo_binary_from_sign_solution(&searched.signs)),
        signs: searched.signs,
        levels: searched.levels,
        dual_variables: dual_variables_with_QV(&(&work * factor), factor) + &diagonal,
    }
}
