//! 01's numbers: the conditions that jobs and calls share. All of this is the harness's own.

use crate::table::Entry;

pub const MOST_WAGONS: usize = 255;
pub const MOST_SIGNS: usize = MOST_WAGONS + 1;
pub const MOST_ENTRIES: usize = 4096;
pub const MOST_SIGN_ENTRIES: usize = 4862;
pub const MOST_MAGNITUDE: u128 = 1 << 40;
pub const MOST_SIGN_MAGNITUDE: u128 = 1 << 42;
pub const MOST_RANK: usize = 32;
pub const MOST_WIDTH: usize = 128;
pub const MOST_DRAWS: usize = 1000;
pub const MOST_ORIGINAL_SIZE: usize = 1024;

/// 14 for one entry: out of range, or not above the one before.
pub fn bad_place(size: usize, before: Option<&Entry>, entry: &Entry) -> bool {
    let rises = before.is_none_or(|b| (b.row, b.col) < (entry.row, entry.col));
    entry.row >= size || entry.col >= size || !rises
}

/// 14 for a table.
pub fn bad_places(size: usize, entries: &[Entry]) -> bool {
    (0..entries.len()).any(|k| bad_place(size, k.checked_sub(1).map(|b| &entries[b]), &entries[k]))
}

/// 15: some entry's mirror is absent or unequal. The entries must rise.
pub fn unmirrored(entries: &[Entry]) -> bool {
    entries.iter().any(|e| {
        match entries.binary_search_by_key(&(e.col, e.row), |other| (other.row, other.col)) {
            Ok(at) => entries[at].value != e.value,
            Err(_) => true,
        }
    })
}

/// The sum of the entries' absolute values.
pub fn magnitude(entries: &[Entry]) -> u128 {
    entries.iter().map(|e| u128::from(e.value.unsigned_abs())).sum()
}

/// 16: the entries and twice the costs.
pub fn too_large(entries: &[Entry], c: &[i64]) -> bool {
    let costs: u128 = c.iter().map(|value| u128::from(value.unsigned_abs())).sum();
    magnitude(entries) + 2 * costs > MOST_MAGNITUDE
}

/// 18: a rule above 4, or rule 4 with a number that is no momentum.
pub fn bad_rule(rule: u8, number: f64) -> bool {
    let momentum = number.is_finite() && (0.0..1.0).contains(&number);
    rule > 4 || (rule == 4 && !momentum)
}

/// 19, of the draw count.
pub fn bad_draw_count(count: usize) -> bool {
    count == 0 || count > MOST_DRAWS
}

/// The first number of a list whose condition holds, or 0.
pub fn first(conditions: &[(u8, &dyn Fn() -> bool)]) -> u8 {
    conditions.iter().find(|(_, holds)| holds()).map_or(0, |&(number, _)| number)
}
