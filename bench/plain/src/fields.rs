//! The fields of a script's lines.
use crate::index::Ask;
use crate::numbers;
use crate::ranges::Asked;
use crate::schema::{agg_of, Agg};
use crate::tree::*;
use crate::warehouse::Warehouse;
use csv::{ByteRecord, ReaderBuilder};

/// Why a line is refused.
pub enum Fault {
    Field(usize),
    Number,
}

/// The cell that a line asks for. None if it has a value that no row ever had.
pub type AskedCell = Option<Cell>;

/// Calls `take` with each field of a rest and its place, counted from 0. It stops when `take` answers false.
fn each_field<'a>(rest: &'a [u8], mut take: impl FnMut(usize, &[u8]) -> bool) {
    if !rest.iter().any(|byte| matches!(byte, b'"' | b'\r')) {
        if !rest.is_empty() {
            rest.split(|&byte| byte == b',').enumerate().all(|(k, field)| take(k, field));
        }
        return;
    }
    let mut reader = ReaderBuilder::new().has_headers(false).flexible(true).from_reader(rest);
    let mut record = ByteRecord::new();
    let mut k = 0;
    while reader.read_byte_record(&mut record).unwrap_or(false) {
        for field in &record {
            if !take(k, field) {
                return;
            }
            k += 1;
        }
    }
}

/// Reads as many fields as there are dimensions. `take` answers false if a field isn't allowed. The place of the first fault
/// counts the words before the fields.
fn read_fields(dims: usize, rest: &[u8], words: usize, mut take: impl FnMut(usize, &[u8]) -> bool) -> Result<(), Fault> {
    if rest.starts_with(b"\xEF\xBB\xBF") {
        return Err(Fault::Field(words + 1));
    }
    let mut count = 0;
    let mut wrong = None;
    each_field(rest, |k, field| {
        count += 1;
        if k >= dims || !take(k, field) {
            wrong = Some(k);
        }
        wrong.is_none()
    });
    match wrong {
        Some(k) => Err(Fault::Field(words + k + 1)),
        None if count < dims => Err(Fault::Field(words + count + 1)),
        None => Ok(()),
    }
}

impl Warehouse {
    pub fn read_cell(&self, rest: &[u8], words: usize) -> Result<AskedCell, Fault> {
        let mut cell = [ANY; 16];
        let mut is_known = true;
        read_fields(self.texts.len(), rest, words, |dim, field| {
            let text = match field {
                b"*" => return true,
                b"?" => return false,
                [b'=', text @ ..] => text,
                [b'|' | b'~', ..] => return false,
                text => text,
            };
            match self.texts[dim].code(text) {
                Some(code) => cell[dim] = code,
                None => is_known = false,
            }
            true
        })?;
        Ok(is_known.then_some(cell))
    }

    pub fn read_box(&mut self, rest: &[u8]) -> Result<Vec<Asked>, Fault> {
        self.rank_all();
        let mut asked = Vec::with_capacity(self.texts.len());
        read_fields(self.texts.len(), rest, 0, |dim, field| {
            asked.extend(self.read_asked(dim, field));
            asked.len() == dim + 1
        })?;
        Ok(asked)
    }

    fn read_asked(&self, dim: usize, field: &[u8]) -> Option<Asked> {
        let (texts, ranks) = (&self.texts[dim], &self.ranks[dim]);
        let rank = |text: &[u8]| texts.code(text).map(|code| ranks.of_code[code as usize]);
        let list = |values: &mut dyn Iterator<Item = &[u8]>| {
            let mut list: Vec<u32> = values.filter_map(rank).collect();
            list.sort_unstable();
            list.dedup();
            Some(Asked::List(list))
        };
        match field {
            b"*" => Some(Asked::Any),
            b"?" => Some(Asked::Interval(0, texts.len() as u32)),
            [b'=', text @ ..] => list(&mut std::iter::once(text)),
            [b'|', values @ ..] => list(&mut values.split(|&byte| byte == b'|')),
            [b'~', ends @ ..] => {
                let mut ends = ends.split(|&byte| byte == b'~');
                let (low, high) = (ends.next()?, ends.next()?);
                if ends.next().is_some() {
                    return None;
                }
                let begin = ranks.codes.partition_point(|code| texts.text(*code) < low);
                let end = ranks.codes.partition_point(|code| texts.text(*code) <= high);
                Some(Asked::Interval(begin as u32, end.max(begin) as u32))
            }
            text => list(&mut std::iter::once(text)),
        }
    }

    /// Reads the words of an iceberg, or those of a roll-up before its cell. `next` gives the next word.
    fn read_ask<'a>(&self, mut next: impl FnMut() -> Option<&'a [u8]>) -> Result<(Option<Ask>, usize), Fault> {
        let word = |word: Option<&'a [u8]>| word.and_then(|word| std::str::from_utf8(word).ok());
        let agg = word(next()).and_then(agg_of).ok_or(Fault::Field(1))?;
        let (measure, before) = match agg {
            Agg::Count => (0, 1),
            _ => (word(next()).and_then(|name| self.schema.measure(name)).ok_or(Fault::Field(2))?, 2),
        };
        let at_least = match next() {
            Some(b">=") => true,
            Some(b"<=") => false,
            _ => return Err(Fault::Field(before + 1)),
        };
        let value = next().ok_or(Fault::Field(before + 2))?;
        let scale = if agg == Agg::Count { 0 } else { self.schema.measures[measure].1 };
        let ask = numbers::fraction(value).map(|mut value| {
            value.num *= 10_i128.pow(u32::from(scale));
            Ask { key: (agg, measure), at_least, value }
        });
        Ok((ask, before + 2))
    }

    pub fn read_iceberg(&self, rest: &[u8]) -> Result<Ask, Fault> {
        let mut words = rest.split(|&byte| byte == b' ').filter(|word| !word.is_empty());
        let (ask, count) = self.read_ask(|| words.next())?;
        if words.next().is_some() {
            return Err(Fault::Field(count + 1));
        }
        ask.ok_or(Fault::Number)
    }

    pub fn read_rollup(&self, rest: &[u8]) -> Result<(Ask, AskedCell), Fault> {
        let mut left = Some(rest);
        let (ask, count) = self.read_ask(|| {
            let rest = left?;
            let end = rest.iter().position(|&byte| byte == b' ');
            left = end.map(|end| &rest[end + 1..]);
            Some(&rest[..end.unwrap_or(rest.len())]).filter(|word| !word.is_empty())
        })?;
        let cell = self.read_cell(left.unwrap_or(&[]), count)?;
        Ok((ask.ok_or(Fault::Number)?, cell))
    }
}
