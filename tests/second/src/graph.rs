//! Rows of labels with inclusions between them, kept so that every inclusion ends up true.

use crate::row::Row;

pub struct Graph {
    rows: Vec<Row>,
    /// Labels of each row that have not yet been handed on along the row's inclusions.
    fresh: Vec<Row>,
    waiting: Vec<usize>,
    /// Which rows include each row, as a list and as bits.
    included_in: Vec<Vec<u16>>,
    known: Vec<u64>,
}

impl Graph {
    pub fn new(rows: usize) -> Graph {
        Graph {
            rows: vec![Row::EMPTY; rows],
            fresh: vec![Row::EMPTY; rows],
            waiting: Vec::new(),
            included_in: vec![Vec::new(); rows],
            known: vec![0; (rows * rows).div_ceil(64)],
        }
    }

    pub fn rows(&self) -> &[Row] {
        &self.rows
    }

    /// The row holds these labels. What is written to row 0, S(0), is dropped.
    pub fn hold(&mut self, row: usize, labels: Row) {
        let new = labels & !self.rows[row];
        if row == 0 || new.is_empty() {
            return;
        }
        if self.fresh[row].is_empty() {
            self.waiting.push(row);
        }
        self.rows[row] |= new;
        self.fresh[row] |= new;
    }

    /// The row includes the row `from`, now and for ever.
    pub fn include(&mut self, row: usize, from: usize) {
        if row == 0 || from == 0 || row == from {
            return;
        }
        let edge = from * self.rows.len() + row;
        if self.known[edge / 64] >> (edge % 64) & 1 == 1 {
            return;
        }
        self.known[edge / 64] |= 1 << (edge % 64);
        self.included_in[from].push(row as u16);
        self.hold(row, self.rows[from]);
    }

    /// Takes a row with fresh labels, hands them on, and tells the row and those labels.
    pub fn next(&mut self) -> Option<(usize, Row)> {
        let row = self.waiting.pop()?;
        let fresh = std::mem::take(&mut self.fresh[row]);
        for i in 0..self.included_in[row].len() {
            let wider = self.included_in[row][i] as usize;
            self.hold(wider, fresh);
        }
        Some((row, fresh))
    }
}
