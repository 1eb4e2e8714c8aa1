//! Prints every intermediate value of a job. The run is made step by step; at the end it must
//! stand at the same bits as one call of the unchanged solver.

use crate::answer::{self, end_signs, solve, status_number};
use crate::draws::lent;
use crate::job::{self, Job};
use crate::maxcut_oracle::{compute_rounded_sols, obj_rounded};
use crate::pinned::without_pins;
use crate::plain::{finish, open, sweep_once, Check, Finish, Run, Stage};
use crate::sdp_solver::inside_solver::separate_diagonal;
use crate::table::{eighths, sign_bytes, sign_matrix, Table};
use crate::words::{all_bits, bits, hex};
use ndarray::Array2;
use sprs::CsMat;
use std::fmt::Write;

/// Lines of a name and its values: counts and eighths in decimal, doubles as bits.
struct Lines {
    text: String,
}

impl Lines {
    fn line(&mut self, name: &str, value: impl std::fmt::Display) {
        let _ = writeln!(self.text, "{}", format!("{name} {value}").trim_end());
    }

    fn double(&mut self, name: &str, value: f64) {
        self.line(name, format!("{:016X}", bits(value)));
    }

    fn doubles<'a>(&mut self, name: &str, values: impl IntoIterator<Item = &'a f64>) {
        let words = all_bits(values).iter().map(|word| format!("{word:016X}")).collect::<Vec<_>>();
        self.line(name, words.join(" "));
    }

    fn bytes(&mut self, name: &str, values: &[u8]) {
        self.line(name, values.iter().map(u8::to_string).collect::<Vec<_>>().join(" "));
    }
}

/// The trace of a job, or its refusal.
pub fn trace(record: &[u8]) -> String {
    let mut lines = Lines { text: String::new() };
    match job::read(record) {
        Ok(job) => trace_free(&mut lines, &job),
        Err(number) => lines.line("refused", number),
    }
    lines.line("answer", hex(&answer::answer(record)));
    lines.text
}

/// The job on its free wagons; which they are, and the constant in eighths, where some are pinned.
fn trace_free(lines: &mut Lines, job: &Job) {
    let (reduced, held) = without_pins(job);
    if !job.pins.is_empty() {
        let free: Vec<String> = held.free().iter().map(usize::to_string).collect();
        lines.line("free", free.join(" "));
        lines.line("constant", eighths(held.constant));
    }
    trace_job(lines, &reduced);
}

fn trace_job(lines: &mut Lines, job: &Job) {
    let q = sign_matrix(&job.h, &job.c);
    trace_table(lines, &q);
    let (mut run, mut factor) = open(&q, &job.settings, &job.start_numbers);
    lines.line("rank", run.rank);
    lines.doubles("start_factor", factor.iter());
    lines.double("objective_at_open", run.last_objective);
    let (work, diagonal) = separate_diagonal(&q);
    lines.line("work_entries", work.nnz());
    lines.doubles("diagonal", diagonal.iter());
    while run.stage == Stage::Open {
        let (swept, check) = sweep_once(&mut run, &work, factor);
        factor = swept;
        lines.line("sweep", run.sweeps);
        lines.doubles("factor", factor.iter());
        if let Some(check) = check {
            trace_check(lines, &check);
        }
    }
    lines.line("status", run.status);
    lines.line("sweeps", run.sweeps);
    trace_draws(lines, job, &q, &factor);
    let finished = finish(&run, &q, &factor, job.width, job.draw_count, &job.draws);
    trace_finish(lines, &finished);
    assert_same(job, &run, &factor, &finished);
}

fn trace_table(lines: &mut Lines, q: &CsMat<f64>) {
    lines.line("size", q.rows());
    lines.line("sign_table", q.nnz());
    for entry in Table::of_matrix(q).entries {
        lines.line("entry", format!("{} {} {}", entry.row, entry.col, entry.value));
    }
}

fn trace_check(lines: &mut Lines, check: &Check) {
    lines.doubles("check_multipliers", check.dual.iter());
    lines.double("check_residual", check.residual);
    lines.double("check_norm", check.norm);
    lines.double("check_threshold", check.threshold);
    lines.double("check_previous", check.previous);
    lines.double("check_objective", check.objective);
    lines.line("check_decision", format!("{:?}", check.decision));
}

fn trace_draws(lines: &mut Lines, job: &Job, q: &CsMat<f64>, factor: &Array2<f64>) {
    let rounded = lent(&[], &job.draws, || compute_rounded_sols(factor, job.draw_count));
    for signs in rounded {
        lines.bytes("draw_signs", &sign_bytes(&signs));
        lines.line("draw_objective", eighths(obj_rounded(q, &signs)));
    }
}

fn trace_finish(lines: &mut Lines, finished: &Finish) {
    lines.double("relaxed_objective", finished.relaxed_objective);
    lines.doubles("dual_variables", finished.dual_variables.iter());
    lines.double("float_bound", finished.float_bound);
    lines.line("floor", finished.floor);
    lines.bytes("rounded_signs", &sign_bytes(&finished.rounded));
    lines.line("rounded_cost", finished.rounded_cost);
    let levels: Vec<String> = finished.levels.iter().map(usize::to_string).collect();
    lines.line("level_sizes", levels.join(" "));
    lines.line("rounds", finished.levels.len());
    lines.bytes("signs", &sign_bytes(&finished.signs));
    lines.line("cost", finished.cost);
    lines.bytes("choice", &finished.choice);
}

/// The step-by-step run against one call of the solver.
fn assert_same(job: &Job, run: &Run, factor: &Array2<f64>, finished: &Finish) {
    let (_, result) = solve(job);
    let (rounded, signs) = end_signs(&result);
    let rounded_objective = result.rounded_objective.expect("rounding is on");
    let cost = result.locally_improved_objective.unwrap_or(rounded_objective);
    assert_eq!(run.rank, result.rank, "rank");
    assert_eq!(run.status, status_number(result.status), "status");
    assert_eq!(run.sweeps as usize, result.iterations, "sweeps");
    assert_eq!(all_bits(factor.iter()), all_bits(result.factor_matrix.iter()), "factor");
    assert_eq!(
        bits(finished.relaxed_objective),
        bits(result.relaxed_objective),
        "relaxed objective"
    );
    assert_eq!(
        all_bits(finished.dual_variables.iter()),
        all_bits(result.dual_variables.iter()),
        "dual_variables"
    );
    assert_eq!(&finished.rounded, rounded, "rounded signs");
    assert_eq!(finished.rounded_cost, eighths(rounded_objective), "rounded cost");
    assert_eq!(&finished.signs, signs, "signs");
    assert_eq!(finished.cost, eighths(cost), "cost");
}
