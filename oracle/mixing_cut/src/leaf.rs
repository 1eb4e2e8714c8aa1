//! One function of the six files per line: a word that names it, its arguments, ` = `, its result.

use crate::answer::{step_rule, Start, SEED};
use crate::blocks::House;
use crate::draws::lent;
use crate::job::Settings;
use crate::leaf_calls;
use crate::leaf_numbers;
use crate::limited::limited;
use crate::maxcut_oracle::{
    compute_rounded_sol, compute_rounded_sols, dual_variables, entrywise_lower_bound, grad, obj,
    obj_rounded,
};
use crate::plain::measure;
use crate::refusals::{bad_places, bad_rule, magnitude, MOST_ORIGINAL_SIZE};
use crate::sdp_project::project;
use crate::sdp_solver::inside_solver::{prepare_initial_factor, separate_diagonal};
use crate::sdp_solver::{
    default_sdp_rank, eval_qubo_objective, qubo_binary_from_sign_solution, ReducedProblem,
};
use crate::search::search;
use crate::step_rules::apply_step;
use crate::table::{choice_bytes, eighths, linear, sign_bytes, sign_matrix, signs, Entry, Table};
use crate::words::{In, Out};
use ndarray::{Array1, Array2};
use ndarray_linalg::Norm;
use sprs::CsMat;

type Done = Result<(), String>;

/// The line, ` = ` and the result words.
pub fn leaf(line: &str) -> Result<String, String> {
    let (name, mut words) = In::new(line);
    let mut out = Out::default();
    let function: fn(&mut In, &mut Out) -> Done = match name {
        "sqrt" => sqrt,
        "rank" => rank,
        "signtable" => signtable,
        "obj_rounded" => objective_of_signs,
        "floor" => floor,
        "bound" => bound,
        "cost" => cost,
        "decode" => decode,
        "beam" => beam,
        "work" => work,
        "prepared" => prepared,
        "dot" => dot,
        "norm" => norm,
        "project" => project_rows,
        "multiply" => multiply,
        "obj" => objective,
        "grad" => gradient,
        "dual" => dual,
        "multipliers" => multipliers,
        "step" => step,
        "start" => start,
        "check" => check,
        "round" => round,
        "rounded" => rounded,
        "sols" => sols,
        "dual_call" => leaf_calls::dual,
        "divided_call" => leaf_calls::divided,
        "rounded_call" => leaf_calls::rounded,
        "submatrix" => submatrix,
        "lift" => lift,
        "blocks" => blocks,
        "limited" => limited_moves,
        "sign_table_number" => leaf_numbers::sign_table,
        "submatrix_number" => leaf_numbers::submatrix,
        "lift_number" => leaf_numbers::lift,
        _ => return Err(format!("no function is named {name:?}")),
    };
    function(&mut words, &mut out)?;
    words.end()?;
    Ok(format!("{line} = {}", out.text()))
}

fn want(condition: bool, message: &str) -> Done {
    condition.then_some(()).ok_or(message.to_string())
}

/// Size, count, then row, column and value of each entry.
fn table(words: &mut In) -> Result<Table, String> {
    let size = words.count()?;
    let entry = |words: &mut In| {
        let (row, col) = (words.count()?, words.count()?);
        Ok(Entry { row, col, value: words.whole()? })
    };
    let entries = words.slice(entry)?;
    want(!bad_places(size, &entries), "the table's entries are out of range or order")?;
    want(magnitude(&entries) <= 1 << 53, "the table's values are too large for exact doubles")?;
    Ok(Table { size, entries })
}

/// A table of eighths as the matrix of its values divided by 8.
fn matrix(words: &mut In) -> Result<CsMat<f64>, String> {
    Ok(table(words)?.matrix(8.0))
}

fn sign_words(words: &mut In) -> Result<Array1<f64>, String> {
    let bytes = words.slice(|words| Ok(u8::from(words.word()? != 0)))?;
    Ok(signs(&bytes))
}

/// Numbers of a matrix, row by row.
fn rows(words: &mut In, rows: usize, cols: usize) -> Result<Array2<f64>, String> {
    let numbers = words.doubles()?;
    want(rows.checked_mul(cols) == Some(numbers.len()), "rows and numbers disagree")?;
    Ok(Array2::from_rows((rows, cols), numbers))
}

/// Table, rank, factor.
fn matrix_and_factor(words: &mut In) -> Result<(CsMat<f64>, Array2<f64>), String> {
    let q = matrix(words)?;
    let rank = words.count()?;
    let factor = rows(words, q.rows(), rank)?;
    Ok((q, factor))
}

fn sqrt(words: &mut In, out: &mut Out) -> Done {
    out.double(words.double()?.sqrt());
    Ok(())
}

fn rank(words: &mut In, out: &mut Out) -> Done {
    out.count(default_sdp_rank(words.count()?));
    Ok(())
}

fn signtable(words: &mut In, out: &mut Out) -> Done {
    let h = table(words)?;
    let c = words.wholes()?;
    want(c.len() == h.size, "one c for each wagon")?;
    Table::of_matrix(&sign_matrix(&h, &c)).put(out);
    Ok(())
}

fn objective_of_signs(words: &mut In, out: &mut Out) -> Done {
    let q = matrix(words)?;
    let x = sign_words(words)?;
    want(x.len() == q.rows(), "one sign for each row")?;
    out.whole(eighths(obj_rounded(&q, &x)));
    Ok(())
}

fn floor(words: &mut In, out: &mut Out) -> Done {
    out.whole(table(words)?.floor());
    Ok(())
}

fn bound(words: &mut In, out: &mut Out) -> Done {
    out.double(entrywise_lower_bound(&matrix(words)?));
    Ok(())
}

fn cost(words: &mut In, out: &mut Out) -> Done {
    let h = table(words)?;
    let c = words.wholes()?;
    let b = words.slice(|words| Ok(if words.word()? == 0 { 0.0 } else { 1.0 }))?;
    want(c.len() == h.size && b.len() == h.size, "one c and one b for each wagon")?;
    let cost = eval_qubo_objective(&h.matrix(1.0), &linear(&c), &Array1::from(b));
    out.whole(eighths(cost));
    Ok(())
}

fn decode(words: &mut In, out: &mut Out) -> Done {
    let x = sign_words(words)?;
    want(!x.is_empty(), "the anchor's sign is missing")?;
    out.bytes(&choice_bytes(&qubo_binary_from_sign_solution(&x)));
    Ok(())
}

fn beam(words: &mut In, out: &mut Out) -> Done {
    let q = matrix(words)?;
    let width = words.count()?;
    let x = sign_words(words)?;
    want(x.len() == q.rows(), "one sign for each row")?;
    let searched = search(&q, width, &x);
    out.bytes(&sign_bytes(&searched.signs));
    out.whole(eighths(searched.objective));
    out.count(searched.levels.len());
    Ok(())
}

fn work(words: &mut In, out: &mut Out) -> Done {
    let table = table(words)?;
    let (work, diagonal) = separate_diagonal(&table.matrix(8.0));
    let work = Table::of_matrix(&work);
    assert_eq!(work, set_aside(&table), "01's sentence and separate_diagonal");
    work.put(out);
    out.doubles(diagonal.iter());
    Ok(())
}

/// The table that the sweeps run over, in doubles with its row starts, the diagonal, and its sum.
fn prepared(words: &mut In, out: &mut Out) -> Done {
    let (work, diagonal) = separate_diagonal(&matrix(words)?);
    let places: Vec<_> = work.iter().map(|(_, place)| place).collect();
    let lengths = work.outer_iterator().map(|row| row.iter().count());
    let ends = lengths.scan(0, |end, length| {
        *end += length;
        Some(*end)
    });
    let starts: Vec<usize> = std::iter::once(0).chain(ends).collect();
    out.counts(places.iter().map(|place| place.0));
    out.counts(places.iter().map(|place| place.1));
    out.doubles(work.iter().map(|(value, _)| value));
    out.counts(starts.into_iter());
    out.doubles(diagonal.iter());
    out.double(diagonal.sum());
    Ok(())
}

/// 01: "where all of it is 0 the table is used as it is, stored zeros included".
fn set_aside(table: &Table) -> Table {
    let mut work = table.clone();
    if table.entries.iter().any(|e| e.row == e.col && e.value != 0) {
        work.entries.retain(|e| e.row != e.col);
    }
    work
}

fn dot(words: &mut In, out: &mut Out) -> Done {
    let (a, b) = (words.doubles()?, words.doubles()?);
    want(a.len() == b.len(), "the two lengths differ")?;
    out.double(Array1::from(a).dot(&Array1::from(b)));
    Ok(())
}

fn norm(words: &mut In, out: &mut Out) -> Done {
    out.double(Array1::from(words.doubles()?).norm_l2());
    Ok(())
}

fn project_rows(words: &mut In, out: &mut Out) -> Done {
    let (m, rank) = (words.count()?, words.count()?);
    out.doubles(project(rows(words, m, rank)?).iter());
    Ok(())
}

fn multiply(words: &mut In, out: &mut Out) -> Done {
    let (q, factor) = matrix_and_factor(words)?;
    out.doubles((&q * &factor).iter());
    Ok(())
}

fn objective(words: &mut In, out: &mut Out) -> Done {
    let (q, factor) = matrix_and_factor(words)?;
    out.double(obj(&q, &factor));
    Ok(())
}

fn gradient(words: &mut In, out: &mut Out) -> Done {
    let (q, factor) = matrix_and_factor(words)?;
    out.doubles(grad(&q, &factor).iter());
    Ok(())
}

/// `dual_variables` over the table as it stands.
fn dual(words: &mut In, out: &mut Out) -> Done {
    let (q, factor) = matrix_and_factor(words)?;
    out.doubles(dual_variables(&q, &factor).iter());
    Ok(())
}

/// The result field `dual_variables`: over the table with its diagonal set aside, then added.
fn multipliers(words: &mut In, out: &mut Out) -> Done {
    let (q, factor) = matrix_and_factor(words)?;
    let (work, diagonal) = separate_diagonal(&q);
    out.doubles((dual_variables(&work, &factor) + &diagonal).iter());
    Ok(())
}

fn step(words: &mut In, out: &mut Out) -> Done {
    let rule = words.word()?.min(255) as u8;
    let number = words.double()?;
    want(!bad_rule(rule, number), "no such rule, or no momentum")?;
    let (q, factor) = matrix_and_factor(words)?;
    out.doubles(apply_step(&q, factor, step_rule(rule, number)).iter());
    Ok(())
}

fn start(words: &mut In, out: &mut Out) -> Done {
    let kind = words.word()?.min(255) as u8;
    want(kind <= 2, "no such start")?;
    let most = u32::from(words.word()? != 0);
    let m = words.count()?;
    let rank = words.count()?;
    want(m > 0 && rank > 0, "m and rank must be above 0")?;
    let numbers = words.doubles()?;
    let settings = Settings {
        rank,
        rule: 3,
        number: 0.0,
        most,
        minimum: 0,
        objective_tolerance: 0.0,
        stationarity_tolerance: 0.0,
        start: kind,
    };
    want(numbers.len() == settings.start_count(m), "the start takes another count of numbers")?;
    let start = Start::new(&settings, m, &numbers);
    let empty = Table { size: m, entries: Vec::new() }.matrix(8.0);
    let factor = lent(start.draws, &[], || {
        prepare_initial_factor(&empty, rank, SEED, &start.warm, most > 0)
    });
    out.doubles(factor.iter());
    Ok(())
}

fn check(words: &mut In, out: &mut Out) -> Done {
    let (q, factor) = matrix_and_factor(words)?;
    let (dual, residual, norm, objective) = measure(&q, &factor);
    out.doubles(dual.iter());
    out.double(objective);
    out.double(residual);
    out.double(norm);
    Ok(())
}

fn round(words: &mut In, out: &mut Out) -> Done {
    let rank = words.count()?;
    let m = words.count()?;
    let factor = rows(words, m, rank)?;
    let draw = words.doubles()?;
    want(draw.len() == rank, "a draw has rank numbers")?;
    let signs = lent(&[], &draw, || compute_rounded_sols(&factor, 1));
    out.bytes(&sign_bytes(&signs[0]));
    Ok(())
}

fn rounded(words: &mut In, out: &mut Out) -> Done {
    let (q, factor) = matrix_and_factor(words)?;
    let count = words.count()?;
    let draws = words.doubles()?;
    want(count > 0, "at least one draw")?;
    want(count.checked_mul(factor.ncols()) == Some(draws.len()), "a draw has rank numbers")?;
    let (signs, objective) = lent(&[], &draws, || compute_rounded_sol(&q, &factor, count));
    out.bytes(&sign_bytes(&signs));
    out.whole(eighths(objective));
    Ok(())
}

/// The signs of each draw, one draw after the other.
fn sols(words: &mut In, out: &mut Out) -> Done {
    let rank = words.count()?;
    let m = words.count()?;
    let factor = rows(words, m, rank)?;
    let count = words.count()?;
    let draws = words.doubles()?;
    want(count.checked_mul(rank) == Some(draws.len()), "a draw has rank numbers")?;
    let signs = lent(&[], &draws, || compute_rounded_sols(&factor, count));
    out.bytes(&signs.iter().flat_map(sign_bytes).collect::<Vec<_>>());
    Ok(())
}

/// The indices must be below the size, and none mapped twice.
fn map_and_fixed(words: &mut In, size: usize) -> Result<(Vec<usize>, Vec<usize>), String> {
    let map = words.counts()?;
    let fixed = words.counts()?;
    want(size <= MOST_ORIGINAL_SIZE, "the original size is too large")?;
    want(map.iter().chain(&fixed).all(|&i| i < size), "an index is out of range")?;
    let mut sorted = map.clone();
    sorted.sort_unstable();
    want(sorted.windows(2).all(|w| w[0] != w[1]), "an index is mapped twice")?;
    Ok((map, fixed))
}

fn submatrix(words: &mut In, out: &mut Out) -> Done {
    let q = matrix(words)?;
    let (map, fixed) = map_and_fixed(words, q.rows())?;
    let fixed = fixed.into_iter().map(|index| (index, 0.0)).collect();
    let problem = ReducedProblem::from_principal_submatrix(&q, map, fixed);
    Table::of_matrix(&problem.reduced_q).put(out);
    Ok(())
}

/// H, c, the width, pinned wagons and their stores, the present choice, then the blocks.
fn blocks(words: &mut In, out: &mut Out) -> Done {
    let h = table(words)?;
    let (c, width) = (words.wholes()?, words.count()?);
    let (pinned, stores, present) = (words.counts()?, bits(words)?, bits(words)?);
    let blocks = words.slice(In::counts)?;
    want(c.len() == h.size && present.len() == h.size, "one c and one byte for each wagon")?;
    want(pinned.len() == stores.len(), "one store for each pinned wagon")?;
    want(width > 0, "a width above 0")?;
    let named = || blocks.iter().flatten().chain(&pinned);
    want(named().all(|&i| i < h.size), "a wagon is out of range")?;
    let house = House { h, c, width, pins: pinned.into_iter().zip(stores).collect() };
    let (choice, falls) = house.clear(&present, &blocks);
    out.bytes(&choice);
    out.count(falls.len());
    falls.into_iter().for_each(|fall| out.whole(fall));
    Ok(())
}

/// H, c, k, the width, the present choice.
fn limited_moves(words: &mut In, out: &mut Out) -> Done {
    let h = table(words)?;
    let (c, k, width) = (words.wholes()?, words.count()?, words.count()?);
    let present = bits(words)?;
    want(c.len() == h.size && present.len() == h.size, "one c and one byte for each wagon")?;
    want(width > 0, "a width above 0")?;
    let (choice, cost, rounds) = limited(&h, &c, k, width, &present);
    out.bytes(&choice);
    out.whole(cost);
    out.count(rounds);
    Ok(())
}

/// Bytes 0 and 1.
fn bits(words: &mut In) -> Result<Vec<u8>, String> {
    words.slice(|words| match words.word()? {
        word @ (0 | 1) => Ok(word as u8),
        word => Err(format!("{word} is neither 0 nor 1")),
    })
}

fn lift(words: &mut In, out: &mut Out) -> Done {
    let size = words.count()?;
    let (map, fixed) = map_and_fixed(words, size)?;
    let fixed_values = words.doubles()?;
    let reduced = words.doubles()?;
    want(fixed.len() == fixed_values.len(), "one value for each fixed index")?;
    want(map.len() == reduced.len(), "one value for each mapped index")?;
    let q = Table { size, entries: Vec::new() }.matrix(8.0);
    let fixed = fixed.into_iter().zip(fixed_values).collect();
    let problem = ReducedProblem::from_principal_submatrix(&q, map, fixed);
    out.doubles(problem.lift_solution(&Array1::from(reduced)).iter());
    Ok(())
}
