// Lookups in tables that turns have built, whole and damaged, against the formula of docs/RULES.md 14.
use crate::cases::{wild, Random};
use crate::damage::unfinished;
use crate::lens;
use crate::memory::{Lent, STRIP};
use crate::record::{bytes_of, sized, REGION_BYTES};
use crate::tables::increments_number;
use crate::turns::Table;
use crate::{listed, Oracle, NUMBERS};

const ANSWER: usize = 16;

/// Lookups of one table: in it as it was built, and in damaged copies of it.
const WHOLE: usize = 25;
const DAMAGED: usize = 25;

/// One call. The first `region_length` bytes of `region` are handed over; its fifth number is only there to be too long.
struct Question<'a> {
    cells: &'a [u32],
    region: [f64; 5],
    region_length: usize,
    size: [u32; 2],
    at: [f64; 2],
    answer_length: usize,
}

/// Where an index lies among so many cells: its cell, that cell's neighbour, and the fraction.
fn spot(index: f64, cells: usize) -> (usize, usize, f64) {
    let first = index as usize;
    (first, (first + 1).min(cells - 1), index - first as f64)
}

impl Question<'_> {
    /// 4, 6, 7 of what is handed in. Of a region that is too short the edges that are there count.
    fn refused_at_once(&self) -> Option<u8> {
        let edges = &self.region[..4.min(self.region_length / 8)];
        let [width, height] = self.size;
        let lengths = (self.cells.len() as u64, self.region_length, self.answer_length);
        match () {
            _ if edges.iter().chain(&self.at).any(|x| !x.is_finite()) => Some(4),
            _ if !sized(width, height) => Some(6),
            _ if lengths != (2 * width as u64 * height as u64, REGION_BYTES, ANSWER) => Some(7),
            _ => None,
        }
    }

    /// Number k of a cell, 0 or 1. Widening is exact.
    fn cell(&self, k: usize, u: usize, v: usize) -> f64 {
        f32::from_bits(self.cells[2 * (v * self.size[0] as usize + u) + k]) as f64
    }

    /// The pixel, or the number of a refusal.
    fn owed(&self) -> Result<[f64; 2], u8> {
        if let Some(number) = self.refused_at_once() {
            return Err(number);
        }
        let size = self.size.map(|side| side as usize);
        let by: [f64; 2] = std::array::from_fn(|k| (self.region[k + 2] - self.region[k]) / (size[k] - 1) as f64);
        if increments_number(by) != 0 {
            return Err(increments_number(by));
        }
        let index: [f64; 2] = std::array::from_fn(|k| (self.at[k] - self.region[k]) / by[k]);
        if (0..2).any(|k| index[k] < 0.0 || index[k] > (size[k] - 1) as f64) {
            return Err(9);
        }
        let ((u, right, a), (v, below, b)) = (spot(index[0], size[0]), spot(index[1], size[1]));
        let pixel = [0, 1].map(|k| {
            let (c00, c10) = (self.cell(k, u, v), self.cell(k, right, v));
            let (c01, c11) = (self.cell(k, u, below), self.cell(k, right, below));
            let top = c00 + a * (c10 - c00);
            let bottom = c01 + a * (c11 - c01);
            top + b * (bottom - top)
        });
        if pixel.iter().any(|x| !x.is_finite()) {
            return Err(11);
        }
        Ok(pixel)
    }
}

/// The f64 after x, or the one before it; of 0 the smallest on that side.
fn beside(x: f64, up: bool) -> f64 {
    match x.to_bits() {
        _ if x == 0.0 => f64::from_bits(if up { 1 } else { 1 << 63 | 1 }),
        bits if (x > 0.0) == up => f64::from_bits(bits + 1),
        bits => f64::from_bits(bits - 1),
    }
}

/// A coordinate in the region, at an edge, one f64 beyond or before it, at a cell's own place, or anywhere.
fn coordinate(r: &mut Random, lower: f64, upper: f64, cells: u32) -> f64 {
    match r.below(12) {
        0 => r.pick(&[lower, upper]),
        1 => beside(lower, false),
        2 => beside(upper, true),
        3 => r.pick(&[beside(lower, true), beside(upper, false)]),
        4 => {
            let x = lower + r.below(cells as usize) as f64 * ((upper - lower) / (cells as f64 - 1.0));
            r.pick(&[x, beside(x, true), beside(x, false)])
        }
        5 => wild(r),
        _ => r.between(lower, upper),
    }
}

/// One or two things wrong with a question.
fn damage(r: &mut Random, q: &mut Question) {
    for _ in 0..1 + r.below(2) {
        match r.below(11) {
            0 => q.at[r.below(2)] = unfinished(r),
            1 => q.region[r.below(4)] = unfinished(r),
            2 => q.region.swap(0, 2),
            3 => q.region[3] = q.region[1],
            4 => {
                let k = r.below(2);
                (q.region[k], q.region[k + 2]) = (-f64::MAX, f64::MAX);
            }
            5 => q.size[r.below(2)] = [0, 1, 2, 4096, 4097, u32::MAX][r.below(6)],
            6 => q.cells = &q.cells[..r.below(1 + q.cells.len())],
            7 => q.region_length = r.below(41),
            8 => q.region[r.below(4)] = wild(r),
            // a region of a few numbers: increments that round to little, and indices far from it
            9 => {
                let k = r.below(2);
                q.region[k + 2] = (0..1 + r.below(4)).fold(q.region[k], |x, _| beside(x, true));
                q.at[k] = r.pick(&[q.region[k], q.region[k + 2], q.at[k]]);
            }
            _ => q.answer_length = r.below(ANSWER + STRIP),
        }
    }
}

#[derive(Default)]
pub struct Tally {
    lookups: u64,
    tables: u64,
    numbers: [u64; NUMBERS],
}

impl Tally {
    fn ask(&mut self, oracle: &mut Oracle, q: &Question) {
        let mut answer = Lent::new(&mut oracle.random, ANSWER);
        let mut owed_answer = answer.clone();
        let owed = q.owed();
        if let Ok(pixel) = owed {
            owed_answer.put(&bytes_of(&pixel));
        }
        let (region, lent) = (bytes_of(&q.region), answer.lend_of_length(q.answer_length));
        let given = lens::lookup(q.cells, &region[..q.region_length], q.size, q.at, lent);
        let number = owed.err().unwrap_or(0);
        self.lookups += 1;
        self.numbers[number as usize] += 1;
        if given != number || answer != owed_answer {
            let bits = |x: &f64| format!("{:016x}", x.to_bits());
            oracle.differs(format!(
                "lookup in {} floats of {:?}, region {:?} of {} bytes, at {:?}, {} bytes lent: gave {}, owed {:?}",
                q.cells.len(),
                q.size,
                q.region.iter().map(bits).collect::<Vec<_>>(),
                q.region_length,
                q.at.iter().map(bits).collect::<Vec<_>>(),
                q.answer_length,
                given,
                owed
            ));
        }
    }

    /// Lookups of a table that turns have finished.
    pub fn table(&mut self, oracle: &mut Oracle, table: Table) {
        let [left, top, right, bottom] = table.region;
        let region = [left, top, right, bottom, 0.0];
        let mut cells = table.cells;
        self.tables += 1;
        for i in 0..WHOLE + DAMAGED {
            let r = &mut oracle.random;
            if i >= WHOLE {
                for _ in 0..1 + cells.len() / 100 {
                    let unfinished = unfinished(r) as f32;
                    let at = r.below(cells.len());
                    cells[at] = [unfinished.to_bits(), r.bits() as u32][r.below(2)];
                }
            }
            let at = [coordinate(r, left, right, table.size[0]), coordinate(r, top, bottom, table.size[1])];
            let (size, region_length) = (table.size, REGION_BYTES);
            let mut q = Question { cells: &cells, region, region_length, size, at, answer_length: ANSWER };
            if i >= WHOLE && r.one_in(2) {
                damage(r, &mut q);
            }
            self.ask(oracle, &q);
        }
    }

    pub fn report(&self, oracle: &mut Oracle) {
        let numbers = &self.numbers;
        println!("lookups: {} in {} tables, answered {}, refused {}", self.lookups, self.tables, numbers[0], listed(numbers));
        oracle.met("lookups", numbers, &[0, 4, 6, 7, 8, 9, 11]);
    }
}
