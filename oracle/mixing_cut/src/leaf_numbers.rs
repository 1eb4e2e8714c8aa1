//! Refusals of the calls that take a sign table or a reduced problem directly. Like all refusals
//! these are the harness's own; the Rust panics or goes on where they stand.

use crate::lent::LentTable;
use crate::refusals::{
    bad_places, first, magnitude, unmirrored, MOST_ORIGINAL_SIZE, MOST_SIGNS,
    MOST_SIGN_ENTRIES, MOST_SIGN_MAGNITUDE,
};
use crate::words::{In, Out};

type Done = Result<(), String>;

/// A sign table given directly: 31, 13, 14, 15, 16.
pub fn sign_table(words: &mut In, out: &mut Out) -> Done {
    let m = words.count()?;
    let table = LentTable::read(words, MOST_SIGN_ENTRIES)?;
    out.word(u64::from(first(&[
        (31, &|| table.short(&[])),
        (13, &|| m == 0 || m > MOST_SIGNS || table.bad_count()),
        (14, &|| bad_places(m, &table.entries())),
        (15, &|| unmirrored(&table.entries())),
        (16, &|| magnitude(&table.entries()) > MOST_SIGN_MAGNITUDE),
    ])));
    Ok(())
}

/// 20: the original size, or an index of the map or of the fixed ones.
fn number20(size: usize, map: &[usize], fixed: &[usize]) -> bool {
    let twice = (0..map.len()).any(|k| map[..k].contains(&map[k]));
    size > MOST_ORIGINAL_SIZE || twice || map.iter().chain(fixed).any(|&index| index >= size)
}

/// `from_principal_submatrix`: 31, 13, 14, 20.
pub fn submatrix(words: &mut In, out: &mut Out) -> Done {
    let size = words.count()?;
    let table = LentTable::read(words, MOST_SIGN_ENTRIES)?;
    let (map, fixed) = (words.counts()?, words.counts()?);
    let results = [words.count()?, words.count()?, words.count()?];
    out.word(u64::from(first(&[
        (31, &|| table.short(&results)),
        (13, &|| table.bad_count()),
        (14, &|| bad_places(size, &table.entries())),
        (20, &|| number20(size, &map, &fixed)),
    ])));
    Ok(())
}

/// `lift_solution`: 31, 20.
pub fn lift(words: &mut In, out: &mut Out) -> Done {
    let size = words.count()?;
    let (map, fixed) = (words.counts()?, words.counts()?);
    let (fixed_values, reduced) = (words.count()?, words.count()?);
    let lifted = words.count()?;
    let short = || {
        fixed_values < fixed.len()
            || reduced < map.len()
            || (size <= MOST_ORIGINAL_SIZE && lifted < size)
    };
    out.word(u64::from(first(&[(31, &short), (20, &|| number20(size, &map, &fixed))])));
    Ok(())
}
