//! The rows: a code for each dimension, an amount for each measure, and an id.
use crate::texts::Fast;
use std::collections::HashMap;

/// Rows lie in slots. A slot is free after the batch that deletes its row.
#[derive(Default)]
pub struct Rows {
    pub dims: usize,
    pub measures: usize,
    codes: Vec<u32>,
    amounts: Vec<i64>,
    ids: Vec<u64>,
    /// The time at which the row of each slot was accepted, as a count of rows.
    order: Vec<u64>,
    accepted: u64,
    free: Vec<u32>,
    by_id: HashMap<u64, u32, Fast>,
}

impl Rows {
    pub fn new(dims: usize, measures: usize) -> Rows {
        Rows { dims, measures, ..Rows::default() }
    }

    /// Makes room for more rows.
    pub fn reserve(&mut self, rows: usize) {
        self.codes.reserve_exact(rows * self.dims);
        self.amounts.reserve_exact(rows * self.measures);
        self.ids.reserve_exact(rows);
        self.order.reserve_exact(rows);
        self.by_id.reserve(rows);
    }

    pub fn len(&self) -> usize {
        self.by_id.len()
    }

    pub fn codes(&self, row: u32) -> &[u32] {
        &self.codes[row as usize * self.dims..][..self.dims]
    }

    pub fn code(&self, row: u32, dim: usize) -> u32 {
        self.codes[row as usize * self.dims + dim]
    }

    pub fn amounts(&self, row: u32) -> &[i64] {
        &self.amounts[row as usize * self.measures..][..self.measures]
    }

    pub fn id(&self, row: u32) -> u64 {
        self.ids[row as usize]
    }

    pub fn slot(&self, id: u64) -> Option<u32> {
        self.by_id.get(&id).copied()
    }

    /// All present rows in the order of their acceptance.
    pub fn in_order(&self) -> Vec<u32> {
        let mut rows: Vec<u32> = self.by_id.values().copied().collect();
        rows.sort_unstable_by_key(|row| self.order[*row as usize]);
        rows
    }

    /// Adds a row whose id isn't present.
    pub fn insert(&mut self, id: u64, codes: &[u32], amounts: &[i64]) -> u32 {
        let row = match self.free.pop() {
            Some(row) => {
                self.codes[row as usize * self.dims..][..self.dims].copy_from_slice(codes);
                self.amounts[row as usize * self.measures..][..self.measures].copy_from_slice(amounts);
                self.ids[row as usize] = id;
                row
            }
            None => {
                self.codes.extend_from_slice(codes);
                self.amounts.extend_from_slice(amounts);
                self.ids.push(id);
                self.order.push(0);
                self.ids.len() as u32 - 1
            }
        };
        self.order[row as usize] = self.accepted;
        self.accepted += 1;
        self.by_id.insert(id, row);
        row
    }

    /// Removes a row from the ids. Its slot keeps it until `release`.
    pub fn remove(&mut self, row: u32) {
        self.by_id.remove(&self.ids[row as usize]);
    }

    /// Puts a removed row back.
    pub fn restore(&mut self, row: u32) {
        self.by_id.insert(self.ids[row as usize], row);
    }

    /// Frees the slot of a removed row.
    pub fn release(&mut self, row: u32) {
        self.free.push(row);
    }

    pub fn clear(&mut self) {
        *self = Rows::new(self.dims, self.measures);
    }

    /// Gives each row the code 0 in a new last dimension.
    pub fn widen(&mut self) {
        let mut codes = Vec::with_capacity(self.codes.len() + self.ids.len());
        for row in 0..self.ids.len() as u32 {
            codes.extend_from_slice(self.codes(row));
            codes.push(0);
        }
        self.codes = codes;
        self.dims += 1;
    }
}
