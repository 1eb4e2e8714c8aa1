//! Numbers as text: 16 hexadecimal digits for each, bytes as two.

use std::fmt::Write;
use std::str::SplitAsciiWhitespace;

/// The one NaN that records and lists hold.
pub const NAN: u64 = 0x7FF8_0000_0000_0000;

/// A double's bits, every NaN as the one.
pub fn bits(x: f64) -> u64 {
    if x.is_nan() {
        NAN
    } else {
        x.to_bits()
    }
}

/// The bits of several doubles.
pub fn all_bits<'a>(values: impl IntoIterator<Item = &'a f64>) -> Vec<u64> {
    values.into_iter().map(|&x| bits(x)).collect()
}

pub fn hex(bytes: &[u8]) -> String {
    bytes.iter().fold(String::new(), |mut text, byte| {
        let _ = write!(text, "{byte:02X}");
        text
    })
}

/// Bytes from hexadecimal digits, blanks between them allowed.
pub fn unhex(text: &str) -> Result<Vec<u8>, String> {
    let digits: Vec<u32> = text
        .chars()
        .filter(|c| !c.is_ascii_whitespace())
        .map(|c| c.to_digit(16).ok_or(format!("{c:?} is no hexadecimal digit")))
        .collect::<Result<_, _>>()?;
    if !digits.len().is_multiple_of(2) {
        return Err("an odd number of hexadecimal digits".to_string());
    }
    Ok(digits.chunks(2).map(|d| (d[0] * 16 + d[1]) as u8).collect())
}

/// Words to be printed.
#[derive(Default)]
pub struct Out {
    text: String,
}

impl Out {
    pub fn word(&mut self, word: u64) {
        if !self.text.is_empty() {
            self.text.push(' ');
        }
        let _ = write!(self.text, "{word:016X}");
    }

    pub fn count(&mut self, count: usize) {
        self.word(count as u64);
    }

    pub fn whole(&mut self, value: i64) {
        self.word(value as u64);
    }

    pub fn double(&mut self, value: f64) {
        self.word(bits(value));
    }

    /// A slice: its length, then its words.
    pub fn doubles<'a>(&mut self, values: impl IntoIterator<Item = &'a f64>) {
        let words = all_bits(values);
        self.count(words.len());
        words.into_iter().for_each(|word| self.word(word));
    }

    /// A slice of counts.
    pub fn counts(&mut self, values: impl ExactSizeIterator<Item = usize>) {
        self.count(values.len());
        values.for_each(|value| self.count(value));
    }

    /// A slice of signs or choices: 0 or 1 each.
    pub fn bytes(&mut self, values: &[u8]) {
        self.count(values.len());
        values.iter().for_each(|&value| self.word(u64::from(value)));
    }

    pub fn text(self) -> String {
        self.text
    }
}

/// The words of a line, read in order.
pub struct In<'a> {
    rest: SplitAsciiWhitespace<'a>,
}

impl<'a> In<'a> {
    /// The line's first word, which names what is asked, and the words after it.
    pub fn new(line: &'a str) -> (&'a str, Self) {
        let mut rest = line.split_ascii_whitespace();
        (rest.next().unwrap_or(""), Self { rest })
    }

    pub fn word(&mut self) -> Result<u64, String> {
        let word = self.rest.next().ok_or("the line ends too early")?;
        if word.len() != 16 {
            return Err(format!("{word:?} has not 16 digits"));
        }
        u64::from_str_radix(word, 16).map_err(|_| format!("{word:?} is no word"))
    }

    pub fn count(&mut self) -> Result<usize, String> {
        usize::try_from(self.word()?).map_err(|error| error.to_string())
    }

    pub fn whole(&mut self) -> Result<i64, String> {
        Ok(self.word()? as i64)
    }

    pub fn double(&mut self) -> Result<f64, String> {
        Ok(f64::from_bits(self.word()?))
    }

    /// A slice: its length, then its words.
    pub fn slice<T>(
        &mut self,
        mut element: impl FnMut(&mut Self) -> Result<T, String>,
    ) -> Result<Vec<T>, String> {
        let length = self.count()?;
        (0..length).map(|_| element(self)).collect()
    }

    pub fn doubles(&mut self) -> Result<Vec<f64>, String> {
        self.slice(Self::double)
    }

    pub fn wholes(&mut self) -> Result<Vec<i64>, String> {
        self.slice(Self::whole)
    }

    pub fn counts(&mut self) -> Result<Vec<usize>, String> {
        self.slice(Self::count)
    }

    /// Nothing may be left.
    pub fn end(mut self) -> Result<(), String> {
        match self.rest.next() {
            None => Ok(()),
            Some(word) => Err(format!("{word:?} is one word too many")),
        }
    }
}
