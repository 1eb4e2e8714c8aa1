//! The calls that take a sign table and a factor as they are lent: the number, or 0 and what the
//! Rust answers. The refusals are the harness's own.

use crate::draws::lent;
use crate::lent::LentTable;
use crate::maxcut_oracle::{compute_rounded_sol, dual_variables};
use crate::refusals::{
    bad_draw_count, bad_places, first, magnitude, unmirrored, MOST_RANK, MOST_SIGNS,
    MOST_SIGN_ENTRIES, MOST_SIGN_MAGNITUDE,
};
use crate::sdp_solver::default_sdp_rank;
use crate::table::{eighths, sign_bytes, Table};
use crate::words::{In, Out};
use ndarray::Array2;
use sprs::CsMat;

type Done = Result<(), String>;

/// Size, table, rank and factor, as lent.
struct Call {
    m: usize,
    table: LentTable,
    rank: usize,
    factor: Vec<f64>,
}

impl Call {
    fn read(words: &mut In) -> Result<Self, String> {
        Ok(Self {
            m: words.count()?,
            table: LentTable::read(words, MOST_SIGN_ENTRIES)?,
            rank: words.count()?,
            factor: words.doubles()?,
        })
    }

    fn bad_size(&self) -> bool {
        self.m == 0 || self.m > MOST_SIGNS
    }

    fn bad_rank(&self) -> bool {
        self.rank > MOST_RANK
    }

    /// The rank as given; 0 means the default rank.
    fn meant(&self) -> usize {
        if self.rank == 0 {
            default_sdp_rank(self.m)
        } else {
            self.rank
        }
    }

    /// 31 of table, factor and answer; a length that rests on what is refused isn't tested.
    fn short(&self, room: usize) -> bool {
        let factor = !self.bad_size() && !self.bad_rank() && self.factor.len() < self.m * self.meant();
        self.short_but_factor(room) || factor
    }

    /// 31 of table and answer.
    fn short_but_factor(&self, room: usize) -> bool {
        self.table.short(&[]) || (!self.bad_size() && room < self.m)
    }

    /// 31, 13, 14, 15, 16, 17, 19.
    fn number(&self, short: bool, bad_draws: bool) -> u8 {
        first(&[
            (31, &|| short),
            (13, &|| self.bad_size() || self.table.bad_count()),
            (14, &|| bad_places(self.m, &self.table.entries())),
            (15, &|| unmirrored(&self.table.entries())),
            (16, &|| magnitude(&self.table.entries()) > MOST_SIGN_MAGNITUDE),
            (17, &|| self.bad_rank()),
            (19, &|| bad_draws),
        ])
    }

    /// What the Rust takes, of an accepted call.
    fn taken(&self) -> (CsMat<f64>, Array2<f64>) {
        let (m, rank) = (self.m, self.meant());
        let table = Table { size: m, entries: self.table.entries() };
        (table.matrix(8.0), Array2::from_rows((m, rank), self.factor[..m * rank].to_vec()))
    }
}

/// `dual_variables`, the Rust's own: over the whole table, nothing set aside.
pub fn dual(words: &mut In, out: &mut Out) -> Done {
    let call = Call::read(words)?;
    let room = words.count()?;
    let number = call.number(call.short(room), false);
    out.word(u64::from(number));
    if number == 0 {
        let (q, factor) = call.taken();
        out.doubles(dual_variables(&q, &factor).iter());
    }
    Ok(())
}

/// Equation 8 with its denominator: the Rust's `dual_variables` over the whole table, each divided by
/// the row's product with itself. The division is the harness's; the rank is given, 0 is 17.
pub fn divided(words: &mut In, out: &mut Out) -> Done {
    let call = Call::read(words)?;
    let room = words.count()?;
    let none = call.rank == 0;
    let short = if none { call.short_but_factor(room) } else { call.short(room) };
    let number = match call.number(short, false) {
        0 if none => 17,
        number => number,
    };
    out.word(u64::from(number));
    if number == 0 {
        let (q, factor) = call.taken();
        let above = dual_variables(&q, &factor);
        let divided = |i: usize| above[i] / factor.row(i).dot(&factor.row(i));
        out.doubles((0..call.m).map(divided).collect::<Vec<_>>().iter());
    }
    Ok(())
}

/// `compute_rounded_sol`.
pub fn rounded(words: &mut In, out: &mut Out) -> Done {
    let call = Call::read(words)?;
    let (count, draws, room) = (words.count()?, words.doubles()?, words.count()?);
    let bad_draws = bad_draw_count(count);
    let rests = bad_draws || call.bad_rank() || (call.rank == 0 && call.bad_size());
    let short = call.short(room) || (!rests && draws.len() < count * call.meant());
    let number = call.number(short, bad_draws);
    out.word(u64::from(number));
    if number == 0 {
        let (q, factor) = call.taken();
        let read = &draws[..count * call.meant()];
        let (signs, objective) = lent(&[], read, || compute_rounded_sol(&q, &factor, count));
        out.bytes(&sign_bytes(&signs));
        out.whole(eighths(objective));
    }
    Ok(())
}
