//! Reads a job record of version 1 to 3, field by field, and refuses it by 01's and 02's numbers.

use crate::refusals::{
    bad_draw_count, bad_place, bad_rule, too_large, unmirrored, MOST_ENTRIES, MOST_RANK,
    MOST_WAGONS, MOST_WIDTH,
};
use crate::sdp_solver::default_sdp_rank;
use crate::table::{Entry, Table};

#[derive(Clone)]
pub struct Job {
    pub h: Table,
    pub c: Vec<i64>,
    /// Wagons that may not move, each with its store; none in version 1.
    pub pins: Vec<(usize, u8)>,
    pub settings: Settings,
    pub start_numbers: Vec<f64>,
    pub width: usize,
    pub draw_count: usize,
    pub draws: Vec<f64>,
}

/// How a run is opened, apart from its table and its start's numbers.
#[derive(Clone)]
pub struct Settings {
    /// As given: 0 stands for the default.
    pub rank: usize,
    pub rule: u8,
    pub number: f64,
    pub most: u32,
    pub minimum: u32,
    pub objective_tolerance: f64,
    pub stationarity_tolerance: f64,
    pub start: u8,
}

impl Settings {
    /// The rank that is meant, for m signs.
    pub fn resolved_rank(&self, m: usize) -> usize {
        match self.rank {
            0 => default_sdp_rank(m),
            rank => rank,
        }
    }

    /// How many numbers the start takes, for m signs.
    pub fn start_count(&self, m: usize) -> usize {
        let rank = self.resolved_rank(m);
        match self.start {
            0 | 1 => m * rank,
            _ if self.most > 0 && rank > 1 => m + m * rank,
            _ => m,
        }
    }
}

const FRAME: usize = 65_536;
const LAST_VERSION: u8 = 3;
/// The most wagons of versions 1 and 2.
const SMALL_WAGONS: usize = 127;

struct Reader<'a> {
    rest: &'a [u8],
}

impl<'a> Reader<'a> {
    /// The next bytes, or 11.
    fn bytes(&mut self, count: usize) -> Result<&'a [u8], u8> {
        let (taken, rest) = self.rest.split_at_checked(count).ok_or(11)?;
        self.rest = rest;
        Ok(taken)
    }

    fn number(&mut self, count: usize) -> Result<u64, u8> {
        let join = |value, &byte| value << 8 | u64::from(byte);
        Ok(self.bytes(count)?.iter().fold(0, join))
    }

    fn byte(&mut self) -> Result<u8, u8> {
        Ok(self.number(1)? as u8)
    }

    fn whole(&mut self) -> Result<i64, u8> {
        Ok(self.number(8)? as i64)
    }

    fn double(&mut self) -> Result<f64, u8> {
        Ok(f64::from_bits(self.number(8)?))
    }

    fn doubles(&mut self, count: usize) -> Result<Vec<f64>, u8> {
        (0..count).map(|_| self.double()).collect()
    }
}

fn refuse_if(condition: bool, number: u8) -> Result<(), u8> {
    if condition {
        Err(number)
    } else {
        Ok(())
    }
}

/// The job, or the number of the refusal.
pub fn read(record: &[u8]) -> Result<Job, u8> {
    refuse_if(record.len() > FRAME, 11)?;
    let mut reader = Reader { rest: record };
    let length = reader.number(4)?;
    refuse_if(length != reader.rest.len() as u64, 11)?;
    let version = reader.byte()?;
    refuse_if(version == 0 || version > LAST_VERSION, 12)?;
    let most = if version < 3 { SMALL_WAGONS } else { MOST_WAGONS };
    let (h, c) = read_table(&mut reader, most)?;
    let pins = if version == 1 { Vec::new() } else { read_pins(&mut reader, h.size)? };
    let (settings, width) = read_settings(&mut reader)?;
    let m = h.size - pins.len() + 1;
    let start_numbers = reader.doubles(settings.start_count(m))?;
    let draw_count = reader.number(2)? as usize;
    refuse_if(bad_draw_count(draw_count), 19)?;
    let draws = reader.doubles(draw_count * settings.resolved_rank(m))?;
    refuse_if(!reader.rest.is_empty(), 11)?;
    Ok(Job { h, c, pins, settings, start_numbers, width, draw_count, draws })
}

fn read_table(reader: &mut Reader, most: usize) -> Result<(Table, Vec<i64>), u8> {
    let n = reader.byte()? as usize;
    refuse_if(n > most, 13)?;
    let count = reader.number(2)? as usize;
    refuse_if(count > MOST_ENTRIES, 13)?;
    let mut entries: Vec<Entry> = Vec::with_capacity(count);
    for _ in 0..count {
        let mut whole = Reader { rest: reader.bytes(10)? };
        let (row, col) = (whole.byte()? as usize, whole.byte()? as usize);
        let entry = Entry { row, col, value: whole.whole()? };
        refuse_if(bad_place(n, entries.last(), &entry), 14)?;
        entries.push(entry);
    }
    refuse_if(unmirrored(&entries), 15)?;
    let c: Vec<i64> = (0..n).map(|_| reader.whole()).collect::<Result<_, _>>()?;
    refuse_if(too_large(&entries, &c), 16)?;
    Ok((Table { size: n, entries }, c))
}

/// The pins, each byte judged as it is read.
fn read_pins(reader: &mut Reader, n: usize) -> Result<Vec<(usize, u8)>, u8> {
    let count = reader.byte()?;
    let mut pins: Vec<(usize, u8)> = Vec::new();
    for _ in 0..count {
        let wagon = reader.byte()? as usize;
        refuse_if(wagon >= n || pins.iter().any(|pin| pin.0 == wagon), 21)?;
        let store = reader.byte()?;
        refuse_if(store > 1, 21)?;
        pins.push((wagon, store));
    }
    Ok(pins)
}

fn read_settings(reader: &mut Reader) -> Result<(Settings, usize), u8> {
    let rank = reader.byte()? as usize;
    refuse_if(rank > MOST_RANK, 17)?;
    let rule = reader.byte()?;
    refuse_if(rule > 4, 18)?;
    let number = reader.double()?;
    refuse_if(bad_rule(rule, number), 18)?;
    let most = reader.number(4)? as u32;
    let minimum = reader.number(4)? as u32;
    let objective_tolerance = reader.double()?;
    let stationarity_tolerance = reader.double()?;
    let width = reader.byte()? as usize;
    refuse_if(width > MOST_WIDTH, 19)?;
    let start = reader.byte()?;
    refuse_if(start > 2, 19)?;
    refuse_if(start == 1 && rank == 0, 17)?;
    let settings = Settings {
        rank,
        rule,
        number,
        most,
        minimum,
        objective_tolerance,
        stationarity_tolerance,
        start,
    };
    Ok((settings, width))
}
