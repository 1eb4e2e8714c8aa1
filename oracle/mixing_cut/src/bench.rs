//! Timings of the unchanged Rust in this process, on the hall of `problem` and the problem of
//! `reduced`.

use crate::answer::{answer, solve, step_rule};
use crate::job;
use crate::problem::{argument, factor, hall, meant, rule_number, sign_bytes, Size};
use crate::reduced::Reduced;
use crate::sdp_local_search::beam_search;
use crate::sdp_project::project;
use crate::sdp_solver::inside_solver::separate_diagonal;
use crate::sdp_solver::ReducedProblem;
use crate::search::by_levels;
use crate::step_rules::apply_step;
use crate::table::{sign_matrix, signs};
use ndarray::{Array1, Array2};
use sprs::CsMat;
use std::hint::black_box;
use std::mem::take;
use std::time::Instant;

const BATCHES: usize = 100;

const USAGE: &str = "usage: oracle bench [of WAGONS PAIRS] sweep RULE RANK CALLS \
                     | beam SEED CALLS [WIDTH] | answer CALLS (job on standard input); \
                     or bench reduced submatrix|lift CALLS";

pub fn bench(what: &[&str], read: impl Fn() -> Result<Vec<u8>, String>) -> Result<String, String> {
    if let ["reduced", part, calls] = what {
        return reduced(part, argument(calls)?);
    }
    let (size, what) = meant(what)?;
    match what {
        ["sweep", rule, rank, calls] => {
            sweeps(size, argument(rule)?, argument(rank)?, argument(calls)?)
        }
        ["beam", seed, calls] => beam(size, argument(seed)?, argument(calls)?, 128),
        ["beam", seed, calls, width] => {
            beam(size, argument(seed)?, argument(calls)?, argument(width)?)
        }
        ["answer", calls] => answers(&read()?, argument(calls)?),
        _ => Err(USAGE.to_string()),
    }
}

/// Nanoseconds per call: in the middle one of 100 batches, and in the fastest.
fn timed(name: &str, calls: u32, mut call: impl FnMut()) -> Result<String, String> {
    if calls == 0 {
        return Err("at least one call".to_string());
    }
    call();
    let mut batches = Vec::new();
    for _ in 0..BATCHES {
        let start = Instant::now();
        (0..calls).for_each(|_| call());
        batches.push(start.elapsed().as_nanos() as f64 / f64::from(calls));
    }
    batches.sort_by(f64::total_cmp);
    let (middle, least) = (batches[BATCHES / 2], batches[0]);
    Ok(format!(
        "{name}: {middle:.0} ns per call, {least:.0} in the fastest of {BATCHES} batches of {calls}\n"
    ))
}

fn sign_table(size: Size) -> CsMat<f64> {
    let (h, c) = hall(size);
    let q = sign_matrix(&h, &c);
    assert_eq!((q.rows(), q.nnz()), (size.signs(), size.entries()), "the hall's sign table");
    q
}

fn sweeps(size: Size, rule: u8, rank: usize, calls: u32) -> Result<String, String> {
    if rule > 4 || rank == 0 {
        return Err(USAGE.to_string());
    }
    let q = sign_table(size);
    let (work, _) = separate_diagonal(&q);
    let start = || project(factor(size, rank, 1));
    let whole = sweep(&q, start(), rule, rank, calls)?;
    Ok(whole + &sweep(&work, start(), rule, rank, calls)?)
}

/// One sweep after another, each from the factor of the one before.
fn sweep(
    q: &CsMat<f64>,
    start: Array2<f64>,
    rule: u8,
    rank: usize,
    calls: u32,
) -> Result<String, String> {
    let step = step_rule(rule, rule_number(rule));
    let mut v = Some(start);
    let name = format!("sweep, rule {rule}, rank {rank}, {} entries", q.nnz());
    timed(&name, calls, || {
        let swept = apply_step(black_box(q), v.take().expect("a factor"), step);
        v = Some(black_box(swept));
    })
}

fn beam(size: Size, seed: u64, calls: u32, width: usize) -> Result<String, String> {
    let q = sign_table(size);
    let start = signs(&sign_bytes(size, seed));
    let rounds = by_levels(&q, width, &start).levels.len();
    let name = format!("beam_search, W {width}, seed {seed}, {rounds} rounds");
    timed(&name, calls, || {
        black_box(beam_search(black_box(&q), width, vec![start.clone()]));
    })
}

/// One of the reduced pair. The map and the fixed indices, which the Rust takes over, are handed
/// from call to call.
fn reduced(part: &str, calls: u32) -> Result<String, String> {
    let made = Reduced::made();
    let q = made.table.matrix(8.0);
    let fixed = made.fixed.into_iter().zip(made.fixed_values).collect();
    let mut problem = ReducedProblem::from_principal_submatrix(&q, made.map, fixed);
    let (size, entries, kept) = (q.rows(), q.nnz(), problem.reduced_q.nnz());
    match part {
        "submatrix" => {
            let name = format!("submatrix, size {size}, {kept} of {entries} entries");
            timed(&name, calls, || {
                let map = take(&mut problem.variable_map);
                let fixed = take(&mut problem.fixed_assignments);
                let made = ReducedProblem::from_principal_submatrix(black_box(&q), map, fixed);
                problem = black_box(made);
            })
        }
        "lift" => {
            let solution = Array1::from(made.solution);
            timed(&format!("lift, size {size}, {} mapped", solution.len()), calls, || {
                black_box(black_box(&problem).lift_solution(black_box(&solution)));
            })
        }
        _ => Err(USAGE.to_string()),
    }
}

/// The solver's part of an answer, and the whole with the harness's second search and checks.
fn answers(record: &[u8], calls: u32) -> Result<String, String> {
    let solver = timed("answer, read and solved by the Rust", calls, || {
        let job = job::read(black_box(record));
        black_box(job.map(|job| solve(&job).1.iterations).ok());
    })?;
    let whole = timed("answer, with the rounds counted by a second search", calls, || {
        black_box(answer(black_box(record)));
    })?;
    Ok(solver + &whole)
}
