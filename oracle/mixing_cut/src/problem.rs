//! The made-up hall of the timings, so that another program can be given the same one.

use crate::reduced::Reduced;
use crate::refusals::MOST_WAGONS;
use crate::table::{sign_matrix, Entry, Table};
use crate::words::{bits, hex, Out};
use ndarray::Array2;

/// SplitMix64: the state grows by 9E3779B97F4A7C15, and its mixed bits are the number.
pub struct SplitMix(u64);

impl SplitMix {
    pub fn new(seed: u64) -> Self {
        Self(seed)
    }

    pub fn next(&mut self) -> u64 {
        self.0 = self.0.wrapping_add(0x9E37_79B9_7F4A_7C15);
        let mut z = self.0;
        z = (z ^ (z >> 30)).wrapping_mul(0xBF58_476D_1CE4_E5B9);
        z = (z ^ (z >> 27)).wrapping_mul(0x94D0_49BB_1331_11EB);
        z ^ (z >> 31)
    }

    /// −100 to 100 without 0.
    pub fn cost(&mut self) -> i64 {
        let k = (self.next() % 200) as i64;
        k - if k < 100 { 100 } else { 99 }
    }

    /// A multiple of 2^-52 from −1 up to, not including, 1.
    fn number(&mut self) -> f64 {
        (self.next() >> 11) as f64 / 2f64.powi(52) - 1.0
    }

    pub fn numbers(&mut self, count: usize) -> Vec<f64> {
        (0..count).map(|_| self.number()).collect()
    }

    /// So many pairs (i, j), i < j, of those below the size, in rising order: each is kept where the
    /// next number modulo the pairs left is below the pairs still wanted, and then gets a cost.
    pub fn pairs(&mut self, size: usize, mut wanted: u64) -> Vec<(usize, usize, i64)> {
        let mut pairs = Vec::new();
        let mut left = (size * size.saturating_sub(1) / 2) as u64;
        for row in 0..size {
            for col in row + 1..size {
                if self.next() % left < wanted {
                    wanted -= 1;
                    pairs.push((row, col, self.cost()));
                }
                left -= 1;
            }
        }
        pairs
    }
}

/// A hall's wagons, and its pairs of wagons that have a cost.
#[derive(Clone, Copy)]
pub struct Size {
    wagons: usize,
    pairs: u64,
}

impl Size {
    const LARGE: Self = Self { wagons: 127, pairs: 2048 };
    const MOST: Self = Self { wagons: MOST_WAGONS, pairs: 2048 };

    pub fn signs(self) -> usize {
        self.wagons + 1
    }

    /// The sign table's entries.
    pub fn entries(self) -> usize {
        2 * self.pairs as usize + 3 * self.wagons + 1
    }
}

/// The hall meant, and the words left: `of WAGONS PAIRS` in front of them names another than the
/// large one.
pub fn meant<'a>(what: &'a [&'a str]) -> Result<(Size, &'a [&'a str]), String> {
    let ["of", wagons, pairs, rest @ ..] = what else {
        return Ok((Size::LARGE, what));
    };
    let size = Size { wagons: argument(wagons)?, pairs: argument(pairs)? };
    let most = Size::MOST;
    let possible = (size.wagons * size.wagons.saturating_sub(1) / 2) as u64;
    if size.wagons > most.wagons || size.pairs > most.pairs || size.pairs > possible {
        return Err("at most 255 wagons and 2,048 of their pairs".to_string());
    }
    Ok((size, rest))
}

const HALL_SEED: u64 = 1;

/// The large one has 127 wagons, 4,096 entries off the diagonal, all c and all row sums other than
/// 0, so that the sign table has 4,478 entries. After the pairs c, one cost each; where row i's sum
/// with 2·c_i is 0, c_i is doubled.
pub fn hall(size: Size) -> (Table, Vec<i64>) {
    let wagons = size.wagons;
    let mut random = SplitMix::new(HALL_SEED);
    let mut entries = Vec::new();
    let mut sums = vec![0; wagons];
    for (row, col, value) in random.pairs(wagons, size.pairs) {
        entries.push(Entry { row, col, value });
        entries.push(Entry { row: col, col: row, value });
        sums[row] += value;
        sums[col] += value;
    }
    entries.sort_by_key(|e| (e.row, e.col));
    let mut c: Vec<i64> = (0..wagons).map(|_| random.cost()).collect();
    for i in 0..wagons {
        if sums[i] + 2 * c[i] == 0 {
            c[i] *= 2;
        }
    }
    (Table { size: wagons, entries }, c)
}

/// m·rank numbers from a seed, not yet projected.
pub fn factor(size: Size, rank: usize, seed: u64) -> Array2<f64> {
    let m = size.signs();
    Array2::from_rows((m, rank), SplitMix::new(seed).numbers(m * rank))
}

/// m signs from a seed: 1 (−) where the number is odd.
pub fn sign_bytes(size: Size, seed: u64) -> Vec<u8> {
    let mut random = SplitMix::new(seed);
    (0..size.signs()).map(|_| (random.next() % 2) as u8).collect()
}

/// A number for each rule, for the timings.
pub fn rule_number(rule: u8) -> f64 {
    match rule {
        0 | 1 => 0.001,
        2 => 0.01,
        4 => 0.5,
        _ => 0.0,
    }
}

/// A job on the hall, of version 3 without pins where it is larger than version 1's: start 0, minimum 0, tolerances 0 and −1, which stop no run of rules 3 and 4.
fn job(size: Size, rule: u8, rank: usize, most: u32, width: u8, draws: u16, seed: u64) -> Vec<u8> {
    let (h, c) = hall(size);
    let larger = size.wagons > Size::LARGE.wagons;
    let mut body = vec![if larger { 3 } else { 1 }, size.wagons as u8];
    body.extend((h.entries.len() as u16).to_be_bytes());
    for e in &h.entries {
        body.extend([e.row as u8, e.col as u8]);
        body.extend(e.value.to_be_bytes());
    }
    c.iter().for_each(|value| body.extend(value.to_be_bytes()));
    body.extend(larger.then_some(0));
    body.extend([rank as u8, rule]);
    body.extend(bits(rule_number(rule)).to_be_bytes());
    body.extend(most.to_be_bytes());
    body.extend(0u32.to_be_bytes());
    body.extend(bits(0.0).to_be_bytes());
    body.extend(bits(-1.0).to_be_bytes());
    body.extend([width, 0]);
    let mut random = SplitMix::new(seed);
    let mut put = |body: &mut Vec<u8>, count| {
        let numbers = random.numbers(count);
        numbers.iter().for_each(|&x| body.extend(bits(x).to_be_bytes()));
    };
    put(&mut body, size.signs() * rank);
    body.extend(draws.to_be_bytes());
    put(&mut body, draws as usize * rank);
    let mut record = (body.len() as u32).to_be_bytes().to_vec();
    record.extend(body);
    record
}

pub fn argument<T: std::str::FromStr>(text: &str) -> Result<T, String> {
    text.parse().map_err(|_| format!("{text:?} is no number that fits here"))
}

const USAGE: &str = "usage: oracle problem [of WAGONS PAIRS] hall | table | factor RANK SEED \
                     | signs SEED | job RULE RANK MOST WIDTH DRAWS SEED; or problem reduced";

/// The hall's parts or the reduced problem in the words of the leaf protocol, or a job in
/// hexadecimal.
pub fn print(what: &[&str]) -> Result<String, String> {
    let mut out = Out::default();
    if what == ["reduced"] {
        Reduced::made().put(&mut out);
        return Ok(out.text() + "\n");
    }
    let (size, what) = meant(what)?;
    match what {
        ["hall"] => {
            let (h, c) = hall(size);
            out.count(h.size);
            h.put(&mut out);
            out.count(c.len());
            c.iter().for_each(|&value| out.whole(value));
        }
        ["table"] => {
            let (h, c) = hall(size);
            let q = Table::of_matrix(&sign_matrix(&h, &c));
            out.count(q.size);
            q.put(&mut out);
        }
        ["factor", rank, seed] => {
            out.doubles(factor(size, argument(rank)?, argument(seed)?).iter());
        }
        ["signs", seed] => out.bytes(&sign_bytes(size, argument(seed)?)),
        ["job", rule, rank, most, width, draws, seed] => {
            let (rule, rank, most) = (argument(rule)?, argument(rank)?, argument(most)?);
            let (width, draws, seed) = (argument(width)?, argument(draws)?, argument(seed)?);
            return Ok(hex(&job(size, rule, rank, most, width, draws, seed)) + "\n");
        }
        _ => return Err(USAGE.to_string()),
    }
    Ok(out.text() + "\n")
}
