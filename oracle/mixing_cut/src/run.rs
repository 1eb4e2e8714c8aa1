//! Scripts of open, sweep, exchange and finish calls. The numbers and the state's rules are the harness's
//! own; sweeps, checks, rounding and search are the Rust's, through `plain`.

use crate::job::Settings;
use crate::lent::LentTable;
use crate::plain::{self, Finish, Run, Stage};
use crate::refusals::{
    bad_draw_count, bad_places, bad_rule, first, too_large, unmirrored, MOST_ENTRIES, MOST_RANK,
    MOST_WAGONS, MOST_WIDTH,
};
use crate::sdp_solver::inside_solver::separate_diagonal;
use crate::table::{sign_matrix, Table};
use crate::words::{In, Out};
use ndarray::Array2;
use sprs::CsMat;

/// The state between calls: the run record and the factor's numbers as the last call left them.
pub struct Script {
    state: Option<(Run, Vec<f64>)>,
}

/// A call's table: n, the entries of H, c.
struct Lent {
    n: usize,
    h: LentTable,
    c: Vec<i64>,
}

impl Lent {
    fn read(words: &mut In) -> Result<Self, String> {
        Ok(Self { n: words.count()?, h: LentTable::read(words, MOST_ENTRIES)?, c: words.wholes()? })
    }

    fn bad_n(&self) -> bool {
        self.n > MOST_WAGONS
    }

    /// 31 for the table's slices; a length that rests on a refused number isn't tested.
    fn short(&self) -> bool {
        self.h.short(&[]) || (!self.bad_n() && self.c.len() < self.n)
    }

    fn number13(&self) -> bool {
        self.bad_n() || self.h.bad_count()
    }

    fn number14(&self) -> bool {
        bad_places(self.n, &self.h.entries())
    }

    fn number15(&self) -> bool {
        unmirrored(&self.h.entries())
    }

    fn number16(&self) -> bool {
        too_large(&self.h.entries(), &self.c[..self.n])
    }

    fn sign_matrix(&self) -> CsMat<f64> {
        let h = Table { size: self.n, entries: self.h.entries() };
        sign_matrix(&h, &self.c[..self.n])
    }
}

impl Script {
    pub fn new() -> Self {
        Self { state: None }
    }

    /// The line, ` = `, the number, the record and the factor, and a finish's result.
    pub fn line(&mut self, line: &str) -> Result<String, String> {
        let (name, mut words) = In::new(line);
        let mut out = Out::default();
        let mut result = Out::default();
        let number = match name {
            "new" => {
                self.state = None;
                0
            }
            "record" => self.record(&mut words)?,
            "open" => self.open(&mut words)?,
            "sweep" => self.sweep(&mut words)?,
            "exchange" => self.exchange(&mut words)?,
            "finish" => self.finish(&mut words, &mut result)?,
            _ => return Err(format!("no call is named {name:?}")),
        };
        words.end()?;
        out.word(u64::from(number));
        if let Some((run, factor)) = &self.state {
            put_run(&mut out, run);
            out.doubles(factor);
        }
        let words = [out.text(), result.text()].join(" ");
        Ok(format!("{line} = {}", words.trim_end()))
    }

    /// Sets the record and the factor, whatever stands in them.
    fn record(&mut self, words: &mut In) -> Result<u8, String> {
        let run = Run {
            size: words.count()?,
            rank: words.count()?,
            rule: byte(words)?,
            number: words.double()?,
            sweeps: number(words)?,
            last_objective: words.double()?,
            objective_tolerance: words.double()?,
            stationarity_tolerance: words.double()?,
            minimum: number(words)?,
            most: number(words)?,
            stage: match words.word()? {
                0 => Stage::Open,
                1 => Stage::Stopped,
                other => return Err(format!("{other} is no stage")),
            },
            status: byte(words)?,
            standing: words.word()?,
        };
        if run.rule > 4 {
            return Err(format!("{} is no rule", run.rule));
        }
        self.state = Some((run, words.doubles()?));
        Ok(0)
    }

    fn open(&mut self, words: &mut In) -> Result<u8, String> {
        let table = Lent::read(words)?;
        let settings = Settings {
            rank: words.count()?,
            rule: byte(words)?,
            number: words.double()?,
            most: number(words)?,
            minimum: number(words)?,
            objective_tolerance: words.double()?,
            stationarity_tolerance: words.double()?,
            start: byte(words)?,
        };
        let numbers = words.doubles()?;
        let factor_length = words.count()?;
        let number = open_number(&table, &settings, numbers.len(), factor_length);
        if number == 0 {
            let q = table.sign_matrix();
            let needed = settings.start_count(q.rows());
            let (run, factor) = plain::open(&q, &settings, &numbers[..needed]);
            self.state = Some((run, factor.to_vec()));
        }
        Ok(number)
    }

    fn sweep(&mut self, words: &mut In) -> Result<u8, String> {
        let table = Lent::read(words)?;
        let k = number(words)?;
        let factor_length = words.count()?;
        let _workspace_length = words.count()?;
        let (run, kept) = self.state.as_mut().ok_or("no run is open")?;
        let number = sweep_number(run, &table, factor_length);
        if number == 0 {
            let (work, _) = separate_diagonal(&table.sign_matrix());
            let mut factor = factor_of(run, kept)?;
            let mut made = 0;
            while run.stage == Stage::Open && made < k {
                (factor, _) = plain::sweep_once(run, &work, factor);
                made += 1;
            }
            kept[..run.size * run.rank].copy_from_slice(&factor.to_vec());
        }
        Ok(number)
    }

    /// Another rule for the sweeps to come (02, Note 12): each of them is `apply_step` with it.
    fn exchange(&mut self, words: &mut In) -> Result<u8, String> {
        let (rule, value) = (byte(words)?, words.double()?);
        let (run, _) = self.state.as_mut().ok_or("no run is open")?;
        let number = exchange_number(run, rule, value);
        if number == 0 {
            run.rule = rule;
            run.number = if rule == 3 { 0.0 } else { value };
        }
        Ok(number)
    }

    fn finish(&mut self, words: &mut In, result: &mut Out) -> Result<u8, String> {
        let table = Lent::read(words)?;
        let width = words.count()?;
        let draw_count = words.count()?;
        let draws = words.doubles()?;
        let lengths = FinishLengths {
            draws: draws.len(),
            factor: words.count()?,
            choice: words.count()?,
            dual_variables: words.count()?,
        };
        let _workspace_length = words.count()?;
        let (run, kept) = self.state.as_ref().ok_or("no run is open")?;
        let number = finish_number(run, &table, width, draw_count, &lengths);
        if number == 0 {
            let factor = factor_of(run, kept)?;
            let draws = &draws[..draw_count * run.rank];
            let q = table.sign_matrix();
            let finish = plain::finish(run, &q, &factor, width, draw_count, draws);
            put_finish(result, run, &finish);
        }
        Ok(number)
    }
}

fn byte(words: &mut In) -> Result<u8, String> {
    u8::try_from(words.word()?).map_err(|_| "a byte is above 255".to_string())
}

fn number(words: &mut In) -> Result<u32, String> {
    u32::try_from(words.word()?).map_err(|_| "a count of sweeps is above 32 bits".to_string())
}

/// The factor's numbers as a matrix; a forged record may come with too few.
fn factor_of(run: &Run, kept: &[f64]) -> Result<Array2<f64>, String> {
    let numbers =
        kept.get(..run.size * run.rank).ok_or("the record line brought too few numbers")?;
    Ok(Array2::from_rows((run.size, run.rank), numbers.to_vec()))
}

fn open_number(table: &Lent, settings: &Settings, numbers: usize, factor: usize) -> u8 {
    let bad_rank = settings.rank > MOST_RANK || (settings.rank == 0 && settings.start == 1);
    let bad_start = settings.start > 2;
    let short = || {
        if table.bad_n() || bad_rank {
            return table.short();
        }
        let m = table.n + 1;
        table.short()
            || factor < m * settings.resolved_rank(m)
            || (!bad_start && numbers < settings.start_count(m))
    };
    first(&[
        (31, &short),
        (13, &|| table.number13()),
        (14, &|| table.number14()),
        (15, &|| table.number15()),
        (16, &|| table.number16()),
        (17, &|| bad_rank),
        (18, &|| bad_rule(settings.rule, settings.number)),
        (19, &|| bad_start),
    ])
}

/// The record's size is the table's, compared without a sum that could overflow.
fn size_agrees(run: &Run, table: &Lent) -> bool {
    run.size.checked_sub(1) == Some(table.n)
}

fn bad_record_rank(run: &Run) -> bool {
    run.rank == 0 || run.rank > MOST_RANK
}

/// 31 for the factor: its length rests on the record's size and rank, and on n.
fn short_factor(run: &Run, table: &Lent, length: usize) -> bool {
    let tested = size_agrees(run, table) && !table.bad_n() && !bad_record_rank(run);
    tested && length < run.size * run.rank
}

fn number33(run: &Run, table: &Lent) -> bool {
    !size_agrees(run, table) || damaged(run)
}

/// 33 of the record alone.
fn damaged(run: &Run) -> bool {
    let open = run.stage == Stage::Open;
    bad_record_rank(run)
        || run.sweeps > run.most
        || (open && run.sweeps == run.most)
        || run.status > 2
        || (open && run.status != 0)
        || u128::from(run.standing) > run.size as u128 * u128::from(run.sweeps)
}

fn sweep_number(run: &Run, table: &Lent, factor: usize) -> u8 {
    first(&[
        (31, &|| table.short() || short_factor(run, table, factor)),
        (32, &|| run.stage == Stage::Stopped),
        (33, &|| number33(run, table)),
        (13, &|| table.number13()),
        (14, &|| table.number14()),
        (15, &|| table.number15()),
        (16, &|| table.number16()),
        (18, &|| bad_rule(run.rule, run.number)),
    ])
}

fn exchange_number(run: &Run, rule: u8, value: f64) -> u8 {
    first(&[
        (32, &|| run.stage == Stage::Stopped),
        (33, &|| damaged(run)),
        (18, &|| bad_rule(run.rule, run.number) || bad_rule(rule, value)),
    ])
}

/// Lengths of the slices lent to a finish, the table's aside.
struct FinishLengths {
    draws: usize,
    factor: usize,
    choice: usize,
    dual_variables: usize,
}

fn finish_number(
    run: &Run,
    table: &Lent,
    width: usize,
    draw_count: usize,
    lengths: &FinishLengths,
) -> u8 {
    let draws_tested = !bad_draw_count(draw_count) && !bad_record_rank(run);
    let short = || {
        table.short()
            || short_factor(run, table, lengths.factor)
            || (draws_tested && lengths.draws < draw_count * run.rank)
            || (!table.bad_n() && lengths.choice < table.n)
            || (!table.bad_n() && lengths.dual_variables < table.n + 1)
    };
    first(&[
        (31, &short),
        (32, &|| run.stage == Stage::Open),
        (33, &|| number33(run, table)),
        (13, &|| table.number13()),
        (14, &|| table.number14()),
        (15, &|| table.number15()),
        (16, &|| table.number16()),
        (18, &|| bad_rule(run.rule, run.number)),
        (19, &|| width > MOST_WIDTH || bad_draw_count(draw_count)),
    ])
}

fn put_run(out: &mut Out, run: &Run) {
    out.count(run.size);
    out.count(run.rank);
    out.word(u64::from(run.rule));
    out.double(run.number);
    out.word(u64::from(run.sweeps));
    out.double(run.last_objective);
    out.double(run.objective_tolerance);
    out.double(run.stationarity_tolerance);
    out.word(u64::from(run.minimum));
    out.word(u64::from(run.most));
    out.word(u64::from(run.stage == Stage::Stopped));
    out.word(u64::from(run.status));
    out.word(run.standing);
}

fn put_finish(out: &mut Out, run: &Run, finish: &Finish) {
    out.word(u64::from(run.status));
    out.count(run.rank);
    out.count(run.size - 1);
    out.word(u64::from(run.sweeps));
    out.double(finish.relaxed_objective);
    out.double(finish.float_bound);
    out.whole(finish.floor);
    out.whole(finish.rounded_cost);
    out.whole(finish.cost);
    out.count(finish.levels.len());
    out.word(run.standing);
    out.bytes(&finish.choice);
    out.doubles(finish.dual_variables.iter());
}
