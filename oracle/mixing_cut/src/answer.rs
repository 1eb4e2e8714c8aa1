//! A job's answer: the unchanged solver run on the sign matrix of the job's free wagons, written as a record.

use crate::draws::lent;
use crate::job::{self, Job, Settings};
use crate::maxcut_oracle::entrywise_lower_bound;
use crate::pinned::{full_cost, without_pins};
use crate::sdp_solver::{
    qubo_binary_from_sign_solution, solve_maxcut_sdp, SolveOptions, SolveResult, SolveStatus,
    WarmStart,
};
use crate::search::search;
use crate::step_rules::StepRule;
use crate::table::{choice_bytes, eighths, sign_matrix, Table};
use crate::words::bits;
use ndarray::{Array1, Array2};
use sprs::CsMat;

/// The answer record, or the six bytes of a refusal.
pub fn answer(record: &[u8]) -> Vec<u8> {
    match job::read(record) {
        Ok(job) => answered(&job),
        Err(number) => vec![0, 0, 0, 2, 1, number],
    }
}

/// The sign matrix and the solver's result, of a job without pins.
pub fn solve(job: &Job) -> (CsMat<f64>, SolveResult) {
    assert!(job.pins.is_empty(), "the solver knows no pins");
    let q = sign_matrix(&job.h, &job.c);
    let start = Start::new(&job.settings, q.rows(), &job.start_numbers);
    let options = options(job, start.warm);
    let result = lent(start.draws, &job.draws, || solve_maxcut_sdp(&q, &options));
    (q, result)
}

/// The start as the Rust takes it, and the draws that it reads.
pub struct Start<'a> {
    pub warm: WarmStart,
    pub draws: &'a [f64],
}

impl<'a> Start<'a> {
    pub fn new(settings: &Settings, m: usize, numbers: &'a [f64]) -> Self {
        let rank = settings.resolved_rank(m);
        assert_eq!(numbers.len(), settings.start_count(m), "start numbers");
        match settings.start {
            0 => Self { warm: WarmStart::Random, draws: numbers },
            1 => {
                let factor = Array2::from_rows((m, rank), numbers.to_vec());
                Self { warm: WarmStart::Factor(factor), draws: &[] }
            }
            _ => {
                let (signs, draws) = numbers.split_at(m);
                Self { warm: WarmStart::Signs(Array1::from(signs.to_vec())), draws }
            }
        }
    }
}

/// Some seed, so that starts read their own queue of numbers.
pub const SEED: Option<u64> = Some(0);

pub fn step_rule(rule: u8, number: f64) -> StepRule {
    match rule {
        0 => StepRule::Grad(number),
        1 => StepRule::GradAdv(number),
        2 => StepRule::Coord(number),
        3 => StepRule::CoordNoStep,
        4 => StepRule::CoordMomentum(number),
        _ => panic!("rule {rule} does not exist"),
    }
}

pub fn status_number(status: SolveStatus) -> u8 {
    match status {
        SolveStatus::MaxIterations => 0,
        SolveStatus::ObjectiveTolerance => 1,
        SolveStatus::ObjectiveIncreased => 2,
    }
}

fn options(job: &Job, warm_start: WarmStart) -> SolveOptions {
    let settings = &job.settings;
    SolveOptions {
        rank: (settings.rank != 0).then_some(settings.rank),
        seed: SEED,
        max_iterations: settings.most as usize,
        min_stationarity_iterations: settings.minimum as usize,
        objective_tolerance: settings.objective_tolerance,
        stationarity_tolerance: settings.stationarity_tolerance,
        rounding_iterations: job.draw_count,
        beam_width: Some(job.width),
        compute_dual_bound: false,
        compute_rounding: true,
        step_rule: step_rule(settings.rule, settings.number),
        verbose: false,
        warm_start,
    }
}

/// The rounded signs and those that the solver ends with.
pub fn end_signs(result: &SolveResult) -> (&Array1<f64>, &Array1<f64>) {
    let rounded = result.rounded_solution.as_ref().expect("rounding is on");
    let improved = result.locally_improved_solution.as_ref();
    (rounded, improved.unwrap_or(rounded))
}

/// The record. The rounds are counted by a second search, which must end where the solver did; the
/// cost of the choice of all wagons, by the whole table, must be the reduced one and the constant.
fn answered(job: &Job) -> Vec<u8> {
    let (reduced, held) = without_pins(job);
    let (q, result) = solve(&reduced);
    let (rounded, signs) = end_signs(&result);
    let searched = search(&q, job.width, rounded);
    assert_eq!(&searched.signs, signs, "the solver's search and the counted one");
    let rounded_cost = result.rounded_objective.expect("rounding is on");
    let cost = result.locally_improved_objective.unwrap_or(rounded_cost);
    let choice = held.lifted(&qubo_binary_from_sign_solution(signs));
    assert_eq!(
        full_cost(job, &choice),
        cost + held.constant,
        "the choice's own cost and the reported one"
    );

    let constant = eighths(held.constant);
    let mut body = vec![1, status_number(result.status), result.rank as u8, job.h.size as u8];
    body.extend((result.iterations as u32).to_be_bytes());
    body.extend(bits(result.relaxed_objective).to_be_bytes());
    body.extend(bits(entrywise_lower_bound(&q)).to_be_bytes());
    body.extend((Table::of_matrix(&q).floor() + constant).to_be_bytes());
    body.extend((eighths(rounded_cost) + constant).to_be_bytes());
    body.extend((eighths(cost) + constant).to_be_bytes());
    body.extend((searched.levels.len() as u64).to_be_bytes());
    body.extend(choice_bytes(&choice));
    let mut record = (body.len() as u32).to_be_bytes().to_vec();
    record.extend(body);
    record
}
