// The record of a build as bytes, by the layout in include/lens.h; and which bytes a turn refuses, by docs/RULES.md 5.2, 13.5.
use crate::judge::camera_refused;
use crate::tables::increments_number;
use rust_text::{Params, COUNTS, LIMITS, MOST_PARAMS, NO_MODEL};

pub const BYTES: usize = 240;
/// Where the parameters stand, and behind all that there is room for: width and height, the units done, the edges.
pub const PARAMS: usize = 8;
pub const SIZE: usize = PARAMS + 8 * MOST_PARAMS;
pub const DONE: usize = 144;
pub const EDGES: usize = 152;
/// Where count and first of the samples that haven't settled stand, and the strict mark.
pub const TALLIES: usize = 216;
pub const MARK: usize = 224;
/// Where the check word stands, and what it is for words that are all 0: "LENSJOB2". Before the corners were done once it was
/// "LENSJOB1".
const CHECK: usize = 232;
const CHECK_OF_ZEROS: u64 = 0x32424f4a534e454c;
const CHECK_BEFORE: u64 = 0x31424f4a534e454c;
/// Where the region stands, and its length.
pub const REGION: usize = 184;
pub const REGION_BYTES: usize = 32;
pub const ANSWER_BYTES: usize = 48;
/// A job of a release before bc12 had room for twelve parameters.
pub const BYTES_OF_TWELVE: usize = 208;

#[derive(Clone, Copy)]
pub struct Record {
    pub model: u32,
    pub updates: u32,
    pub params: Params,
    pub width: u32,
    pub height: u32,
    pub done: u64,
    pub edges: [f64; 4],
    pub region: [f64; 4],
    pub unsettled: u32,
    pub first: u32,
    pub strict: u64,
}

fn word(bytes: &[u8], at: usize) -> u64 {
    u64::from_le_bytes(std::array::from_fn(|i| bytes[at + i]))
}

fn half(bytes: &[u8], at: usize) -> u32 {
    word(bytes, at) as u32
}

fn floats<const N: usize>(bytes: &[u8], at: usize) -> [f64; N] {
    std::array::from_fn(|i| f64::from_bits(word(bytes, at + 8 * i)))
}

pub fn bytes_of(numbers: &[f64]) -> Vec<u8> {
    numbers.iter().flat_map(|x| x.to_le_bytes()).collect()
}

/// Puts the right check word behind the others.
pub fn seal(bytes: &mut [u8]) {
    let check = check_of(bytes);
    bytes[CHECK..].copy_from_slice(&check.to_le_bytes());
}

/// Makes of a right check word the one that a release with another border would have put.
pub fn seal_as_before(bytes: &mut [u8]) {
    let check = word(bytes, CHECK).wrapping_sub(CHECK_OF_ZEROS).wrapping_add(CHECK_BEFORE);
    bytes[CHECK..].copy_from_slice(&check.to_le_bytes());
}

fn check_of(bytes: &[u8]) -> u64 {
    (0..CHECK).step_by(8).fold(CHECK_OF_ZEROS, |sum, at| sum.wrapping_add(word(bytes, at)))
}

impl Record {
    /// Zeros for all but the camera, the size and the strict mark.
    pub fn fresh(model: usize, params: Params, size: [u32; 2], strict: u8) -> Record {
        let ([width, height], strict, box_of_zeros) = (size, strict as u64, [0.0; 4]);
        let (edges, region) = (box_of_zeros, box_of_zeros);
        Record { model: model as u32, updates: 0, params, width, height, done: 0, edges, region, unsettled: 0, first: 0, strict }
    }

    /// Behind the model's own parameters stand zeros.
    pub fn bytes(&self) -> Vec<u8> {
        let mut params = Params::default();
        let count = COUNTS[self.model as usize];
        params[..count].copy_from_slice(&self.params[..count]);
        let halves = |a: u32, b: u32| [a.to_le_bytes(), b.to_le_bytes()].concat();
        let mut bytes = halves(self.model, self.updates);
        bytes.extend(bytes_of(&params));
        bytes.extend(halves(self.width, self.height));
        bytes.extend(self.done.to_le_bytes());
        bytes.extend(bytes_of(&self.edges));
        bytes.extend(bytes_of(&self.region));
        bytes.extend(halves(self.unsettled, self.first));
        bytes.extend(self.strict.to_le_bytes());
        bytes.resize(BYTES, 0);
        seal(&mut bytes);
        bytes
    }

    /// As a release before bc12 held it: twelve parameters, and the same check word, since the others are zeros.
    pub fn bytes_of_twelve(&self) -> Vec<u8> {
        let bytes = self.bytes();
        [&bytes[..PARAMS + 8 * 12], &bytes[SIZE..]].concat()
    }

    pub fn read(bytes: &[u8]) -> Record {
        Record {
            model: half(bytes, 0),
            updates: half(bytes, 4),
            params: floats(bytes, PARAMS),
            width: half(bytes, SIZE),
            height: half(bytes, SIZE + 4),
            done: word(bytes, DONE),
            edges: floats(bytes, EDGES),
            region: floats(bytes, REGION),
            unsettled: half(bytes, TALLIES),
            first: half(bytes, TALLIES + 4),
            strict: word(bytes, MARK),
        }
    }

    pub fn border(&self) -> u64 {
        2 * (self.width as u64 + self.height as u64)
    }

    pub fn samples_done(&self) -> u64 {
        self.done.min(self.border())
    }

    pub fn all(&self) -> u64 {
        self.border() + self.width as u64 * self.height as u64
    }

    /// What a turn says that does no unit of a record that is taken.
    pub fn at_rest(&self) -> Vec<u8> {
        self.answer((self.done == self.all()) as u64)
    }

    pub fn answer(&self, status: u64) -> Vec<u8> {
        let told = [status, self.done, self.all(), self.updates as u64, self.unsettled as u64, self.first as u64];
        told.iter().flat_map(|x| x.to_le_bytes()).collect()
    }

    /// 13.5, of a record that is right otherwise.
    fn of_no_build(&self) -> bool {
        let samples = self.samples_done();
        let [left, top, right, bottom] = self.region;
        let increments = [(right - left) / (self.width - 1) as f64, (bottom - top) / (self.height - 1) as f64];
        self.done > self.all()
            || self.updates as u64 > LIMITS[self.model as usize] * samples
            || self.edges.iter().any(|x| !x.is_finite())
            || self.done >= self.border() && increments_number(increments) != 0
            || self.unsettled as u64 > samples
            || self.first as u64 > samples
            || (self.unsettled == 0) != (self.first == 0)
            || self.strict == 1 && self.unsettled != 0
    }
}

pub fn sized(width: u32, height: u32) -> bool {
    [width, height].iter().all(|side| (2..=4096).contains(side))
}

/// The number of a turn that is refused before any unit, or 0. `places` is how many floats the table has.
pub fn refusal(job: &[u8], places: usize, answer_length: usize) -> u8 {
    if job.len() != BYTES {
        return 7;
    }
    let held = Record::read(job);
    if held.model as usize >= NO_MODEL {
        return 1;
    }
    let count = COUNTS[held.model as usize];
    match camera_refused(held.model as u8, &held.params, 8 * count, &held.region) {
        Some(number) => number,
        None if !sized(held.width, held.height) => 6,
        None if places as u64 != 2 * held.width as u64 * held.height as u64 || answer_length != ANSWER_BYTES => 7,
        None if held.of_no_build() || held.strict > 1 || word(job, CHECK) != check_of(job) => 13,
        None => 0,
    }
}
