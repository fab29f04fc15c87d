// Tables built in turns through C, against the Rust's table: after every turn the job, the whole table and the answer, with
// the memory beside them, have to be what the units done so far make of them.
use crate::cases::{valid_camera, Random};
use crate::judge::{handed, Question};
use crate::lens;
use crate::memory::{Junk, Lent, STRIP};
use crate::record::{self, Record};
use crate::tables::{is_tie, nearest_32nd, too_far, Asked, Built};
use crate::{damage, listed, Oracle, NUMBERS};
use rust_text::linalg::VecF64;
use rust_text::region::BoxRegion;
use rust_text::{COUNTS, LIMITS, MOST_PARAMS, NO_MODEL};

/// A kind of table: one number of a cell, as the oracle keeps it.
trait Cell: Junk {
    /// What memory is spoilt with.
    const SPOILT: Self;
    fn turn(job: &mut [u8], table: &mut [Self], allowance: u64, answer: &mut [u8]) -> u8
    where
        Self: Sized;
    /// Of a table by the Rust: its numbers, and `Built::end`.
    fn cells(built: &Built) -> Vec<Self>
    where
        Self: Sized;
    fn end(built: &Built, strict: bool) -> (usize, u8);
}

/// An f32, by its bits.
impl Cell for u32 {
    const SPOILT: u32 = 0x5a;
    fn turn(job: &mut [u8], table: &mut [u32], allowance: u64, answer: &mut [u8]) -> u8 {
        lens::turn(job, table, allowance, answer)
    }
    fn cells(built: &Built) -> Vec<u32> {
        built.cells.clone()
    }
    fn end(built: &Built, strict: bool) -> (usize, u8) {
        built.end(strict)
    }
}

/// Thirty-seconds of a pixel, of the pixels that the Rust makes f32s of. Behind the first that isn't held come zeros, which are never
/// due.
impl Cell for i16 {
    const SPOILT: i16 = 0x5a;
    fn turn(job: &mut [u8], table: &mut [i16], allowance: u64, answer: &mut [u8]) -> u8 {
        lens::turn16(job, table, allowance, answer)
    }
    fn cells(built: &Built) -> Vec<i16> {
        built.pixels.iter().flat_map(|p| p.unwrap_or([0.0; 2]).map(|x| nearest_32nd(x).unwrap_or(0))).collect()
    }
    fn end(built: &Built, strict: bool) -> (usize, u8) {
        built.end_by(strict, 19, too_far)
    }
}

/// What a caller keeps from turn to turn, and the answer's buffer.
#[derive(Clone, PartialEq)]
struct Kept<T> {
    job: Lent<u8>,
    table: Lent<T>,
    answer: Lent<u8>,
}

impl<T: Cell> Kept<T> {
    fn moved(&self, r: &mut Random) -> Kept<T> {
        Kept { job: self.job.moved(r), table: self.table.moved(r), answer: self.answer.moved(r) }
    }
}

/// A finished table: what lookups need.
pub struct Table {
    pub cells: Vec<u32>,
    pub region: [f64; 4],
    pub size: [u32; 2],
}

#[derive(Default)]
pub struct Tally {
    tables: u64,
    finished: u64,
    turns: u64,
    moves: u64,
    units: u64,
    largest: u64,
    /// Builds that a unit refused, their turns that said so, calls refused before any unit, damaged records that were taken.
    units_refused: [u64; NUMBERS],
    turns_refused: [u64; NUMBERS],
    calls_refused: [u64; NUMBERS],
    taken: u64,
    /// Sound jobs as two releases before held them: by another check word, and by another length.
    of_before: u64,
    unsettled: Unsettled,
    corners: Corners,
    short: Short,
}

/// Builds of bc cameras whose k4, k5 and k6 are zeros, which ours samples without the quotient; and of their turns those behind
/// which an edge of the record is a zero of another sign than the Rust's.
#[derive(Default)]
struct Short {
    builds: u64,
    turns: u64,
    other_zeros: u64,
}

/// Of the tables that aren't strict, those whose borders are done: where the first sample stands that hasn't settled (none, the
/// first of all, a later one, the last of all), in how many the last one hasn't, and all such samples. And strict builds: others,
/// those finished, those that tell 18 where another is refused with 8, and those that tell such a sample's own number.
#[derive(Default)]
struct Unsettled {
    first: [u64; 4],
    last: u64,
    samples: u64,
    strict: [u64; 2],
    before_8: u64,
    own_number: u64,
}

/// Of the same tables: how many there are, and how many of them took updates at a corner. The updates of the Rust's sweeps, of
/// ours, and those that the four corners take.
#[derive(Default)]
struct Corners {
    borders: u64,
    taking: u64,
    rust: u64,
    ours: u64,
    corners: u64,
}

/// What samples found: the edges of their points, zeros before the first, the updates, and of those that haven't settled the
/// count and the position of the first.
#[derive(Clone, Copy, Default)]
struct Swept {
    edges: [f64; 4],
    updates: u32,
    unsettled: u32,
    first: u32,
}

struct Build<T> {
    asked: Asked,
    strict: bool,
    built: Built,
    cells: Vec<T>,
    /// After so many samples.
    swept: Vec<Swept>,
    /// The units before the first that is refused, and its number or 0.
    end: (usize, u8),
    done: usize,
    ours: Kept<T>,
    owed: Kept<T>,
    /// Turns, and those behind which an edge is another zero.
    short: [u64; 2],
}

fn without_quotient(asked: &Asked) -> bool {
    asked.model == 3 && asked.params[9..12].iter().all(|&x| x == 0.0)
}

/// After each count of samples.
fn swept(built: &Built) -> Vec<Swept> {
    let (mut edges, mut now) = (BoxRegion::<2>::empty(), Swept::default());
    let mut after = vec![now];
    for (i, sample) in built.samples.iter().enumerate() {
        edges.extend(VecF64::<2>::new(sample.point[0], sample.point[1]));
        now.updates += sample.updates;
        if !sample.settled {
            now.unsettled += 1;
            now.first = if now.first == 0 { i as u32 + 1 } else { now.first };
        }
        let (lower, upper) = (edges.try_lower().unwrap(), edges.try_upper().unwrap());
        now.edges = [lower.x, lower.y, upper.x, upper.y];
        after.push(now);
    }
    after
}

impl<T: Cell> Build<T> {
    /// The record after the units done.
    fn record(&self) -> Record {
        let border = self.built.samples.len();
        let swept = self.swept[self.done.min(border)];
        Record {
            model: self.asked.model as u32,
            updates: swept.updates,
            params: self.asked.filled(),
            width: self.asked.width as u32,
            height: self.asked.height as u32,
            done: self.done as u64,
            edges: swept.edges,
            region: if self.done < border { [0.0; 4] } else { self.built.region },
            unsettled: swept.unsettled,
            first: swept.first,
            strict: self.strict as u64,
        }
    }

    /// Does the units of a turn in what is owed, and gives the number that the turn returns.
    fn advance(&mut self, allowance: u64) -> u8 {
        let border = self.built.samples.len();
        let before = self.done;
        let left = (self.end.0 - before) as u64;
        self.done += allowance.min(left) as usize;
        let places = |done: usize| 2 * done.saturating_sub(border);
        let cells = places(before)..places(self.done);
        self.owed.table.lend()[cells.clone()].copy_from_slice(&self.cells[cells]);
        let refused = self.end.1 != 0 && allowance > left;
        let record = self.record();
        let status = if refused { 2 } else { (record.done == record.all()) as u64 };
        self.owed.job.put(&record.bytes());
        self.owed.answer.put(&record.answer(status));
        if refused {
            self.end.1
        } else {
            0
        }
    }

    /// One turn of both. Tells a difference.
    fn turn(&mut self, allowance: u64) -> Result<u8, String> {
        let kept = &mut self.ours;
        let given = T::turn(kept.job.lend(), kept.table.lend(), allowance, kept.answer.lend());
        let number = self.advance(allowance);
        self.allow_zeros();
        self.judged(given, number, &format!("a turn of {}", allowance)).map(|_| number)
    }

    /// Of a bc camera whose k4, k5 and k6 are zeros the signs of zeros among the edges are ours to choose, and nothing else is.
    fn allow_zeros(&mut self) {
        if !without_quotient(&self.asked) {
            return;
        }
        let (ours, mut owed) = (Record::read(self.ours.job.held()), self.record());
        let bits = |edges: [f64; 4]| edges.map(f64::to_bits);
        let other = ours.edges == owed.edges && bits(ours.edges) != bits(owed.edges);
        self.short[0] += 1;
        self.short[1] += other as u64;
        if other {
            owed.edges = ours.edges;
            self.owed.job.put(&owed.bytes());
        }
    }

    fn judged(&self, given: u8, number: u8, what: &str) -> Result<(), String> {
        if given == number && self.ours == self.owed {
            return Ok(());
        }
        let at = |place: Option<isize>| place.map_or("the same".to_string(), |p| format!("differs at {}", p));
        Err(format!(
            "{:?}{}, to unit {}, {}: gave {}, owed {}; job {}, table {}, answer {}",
            self.asked.text(),
            if self.strict { ", strict" } else { "" },
            self.done,
            what,
            given,
            number,
            at(self.ours.job.differs_at(&self.owed.job)),
            at(self.ours.table.differs_at(&self.owed.table)),
            at(self.ours.answer.differs_at(&self.owed.answer))
        ))
    }

    /// Other bytes in the answer's buffer.
    fn junk_answer(&mut self, r: &mut Random) {
        self.ours.answer = Lent::new(r, record::ANSWER_BYTES);
        self.owed.answer = self.ours.answer.clone();
    }

    /// Ours and owed to other memory, the same for both; what was lent before is spoilt.
    fn move_on(&mut self, r: &mut Random) {
        let seed = r.bits();
        let moved = self.ours.moved(&mut Random(seed));
        self.ours.job.lend().fill(0x5a);
        self.ours.table.lend().fill(T::SPOILT);
        self.ours = moved;
        self.owed = self.owed.moved(&mut Random(seed));
    }

    /// The job as releases before held it, refused and nothing written: the same bytes but for the check word, which 13
    /// refuses; and with room for twelve parameters, which 7 does.
    fn of_before(&mut self, allowance: u64) -> Result<(), String> {
        let right = self.record().bytes();
        let mut other_border = right.clone();
        record::seal_as_before(&mut other_border);
        let of_twelve = self.record().bytes_of_twelve();
        assert_eq!(of_twelve.len(), record::BYTES_OF_TWELVE);
        let mut judged = Ok(());
        for (job, number) in [(other_border, 13), (of_twelve, 7)] {
            self.ours.job.put(&job);
            self.owed.job.put(&job);
            let kept = &mut self.ours;
            let given = T::turn(kept.job.lend_of_length(job.len()), kept.table.lend(), allowance, kept.answer.lend());
            judged = judged.and(self.judged(given, number, "a job of a release before"));
            self.ours.job.put(&right);
            self.owed.job.put(&right);
        }
        judged
    }

    /// A call with wrong lengths, a damaged record or both. Refused, it must write nothing; taken, with an allowance of 0, it
    /// must say what the record does.
    fn hostile(&mut self, r: &mut Random) -> Result<u8, String> {
        let job = damaged_record(r, self.record());
        for kept in [&mut self.ours, &mut self.owed] {
            kept.job.put(&job);
        }
        let (mut job_length, mut places, mut answer_length) = (job.len(), self.ours.table.held().len(), record::ANSWER_BYTES);
        if r.one_in(3) {
            match r.below(3) {
                0 => job_length = r.below(record::BYTES + STRIP),
                1 => places = if r.one_in(2) { r.below(places) } else { places + 1 + r.below(STRIP - 1) },
                _ => answer_length = r.below(record::ANSWER_BYTES + STRIP),
            }
        }
        let job = self.owed.job.lend_of_length(job_length).to_vec();
        let number = record::refusal(&job, places, answer_length);
        let allowance = if number == 0 { 0 } else { [0, 1, 20, u64::MAX][r.below(4)] };
        let kept = &mut self.ours;
        let (lent_job, table) = (kept.job.lend_of_length(job_length), kept.table.lend_of_length(places));
        let given = T::turn(lent_job, table, allowance, kept.answer.lend_of_length(answer_length));
        if number == 0 {
            let held = Record::read(&job);
            self.owed.job.put(&held.bytes());
            self.owed.answer.put(&held.at_rest());
        }
        let judged = self.judged(given, number, &format!("a job of {} bytes {:02x?}", job.len(), job));
        let right = self.record().bytes();
        self.ours.job.put(&right);
        self.owed.job.put(&right);
        judged.map(|_| number)
    }
}

/// A record with up to two things wrong, perhaps none.
fn damaged_record(r: &mut Random, held: Record) -> Vec<u8> {
    let mut bytes = held.bytes();
    for _ in 0..r.below(3) {
        let (at, length, bits) = damage_of_record(r, &held);
        bytes[at..at + length].copy_from_slice(&bits.to_le_bytes()[..length]);
    }
    if r.one_in(2) {
        record::seal(&mut bytes);
    }
    if r.one_in(4) {
        bytes[r.below(record::BYTES)] ^= 1 << r.below(8);
    }
    bytes
}

/// Where the damage is, how many bytes it has, and what it puts there.
fn damage_of_record(r: &mut Random, held: &Record) -> (usize, usize, u64) {
    let unfinished = damage::unfinished(r).to_bits();
    let any = r.bits();
    let count = COUNTS[held.model as usize];
    let samples = held.samples_done();
    let limit = LIMITS[held.model as usize] * samples;
    match r.below(16) {
        0 => (0, 4, [NO_MODEL as u64, 255, 256, 1 << 31, any, any % NO_MODEL as u64][r.below(6)]),
        1 => (record::PARAMS + 8 * r.below(count), 8, unfinished),
        2 => (record::PARAMS + 8 * r.below(2), 8, [0, 1 << 63][r.below(2)]),
        // not read, and 0 after the turn
        3 if count < MOST_PARAMS => (record::PARAMS + 8 * (count + r.below(MOST_PARAMS - count)), 8, any),
        3 | 4 => (record::SIZE + 4 * r.below(2), 4, [0, 1, 2, 4096, 4097, any][r.below(6)]),
        5 => (4, 4, [limit, limit + 1, u32::MAX as u64, any][r.below(4)]),
        6 | 7 => (record::DONE, 8, [held.border(), held.all(), held.all() + 1, u64::MAX, any % (2 * held.all())][r.below(5)]),
        8 => (record::EDGES + 8 * r.below(4), 8, unfinished),
        9 => (record::REGION + 8 * r.below(4), 8, unfinished),
        // an edge where another is, or far off
        10 => (record::REGION + 8 * r.below(4), 8, held.region[r.below(4)].to_bits()),
        // count and first, both or one
        11 | 12 => {
            let tally = [0, 1, samples.max(1), samples + 1, u32::MAX as u64];
            (record::TALLIES, 8, tally[r.below(5)] | tally[r.below(5)] << 32)
        }
        13 => (record::TALLIES + 4 * r.below(2), 4, [0, 1, samples, samples + 1, any][r.below(5)]),
        14 => (record::MARK, 8, [0, 1, 1, 2, 255, 1 << 32, any][r.below(7)]),
        _ => (record::REGION + 8 * r.below(4), 8, [f64::MAX, f64::MIN, 1e6, -1e6][r.below(4)].to_bits()),
    }
}

/// How a build is split into turns.
fn allowance<T>(r: &mut Random, style: usize, build: &Build<T>) -> u64 {
    let border = build.built.samples.len();
    let all = border + build.asked.width * build.asked.height;
    if r.one_in(6) {
        return 0;
    }
    let units = match style {
        0 => return [u64::MAX, all as u64, all as u64 + 1][r.below(3)],
        1 => 1 + r.below(2),
        2 => r.below(all / 8 + 2),
        // up to the border's last samples and past it, and to the ends of rows
        _ if build.done < border => [border - build.done, border - build.done - 1, border - build.done + 1][r.below(3)],
        _ => build.asked.width * (1 + r.below(1 + build.asked.height / 4)) - r.below(2),
    };
    units as u64
}

/// Tables whose units are refused, each number among them, and the two zeros of bc's last coefficients and of bc12's prism.
fn refused_tables() -> Vec<(usize, Vec<f64>, usize, usize)> {
    let bc = |k1: f64, last: f64| vec![1.0, 1.0, -1.0, -1.0, k1, 0.0, 0.0, 0.0, 0.0, last, last, last];
    let bc12 = |k1: f64, s: f64| [bc(k1, s), vec![s; 4]].concat();
    vec![
        (0, vec![1.0, 1.0, 1e300, 0.0], 3, 2),
        (0, vec![1.0, 2e-308, 1e300, 0.0], 5, 2),
        (0, vec![2e-308, 1.0, 0.0, 0.0], 3, 4),
        (1, vec![0.5, 1.0, 0.5, 0.5, 0.5, 1.0], 3, 2),
        (1, vec![1e38, 1.0, 2.15e38, 0.5, 0.5, 1.0], 3, 2),
        (1, vec![2.0, 2.0, 0.0, 0.0, 0.4, -0.5], 3, 2),
        (2, vec![1.0, 1.0, 0.0, 0.0, 0.0, 0.0, 0.0, 0.0], 3, 2),
        (3, bc(1e55, 0.0), 3, 3),
        (3, bc(1e55, -0.0), 4, 3),
        (4, bc12(1e55, 0.0), 3, 3),
        (4, bc12(1e55, -0.0), 4, 3),
        (4, bc12(0.0, 1e307), 3, 3),
    ]
}

/// bc without its quotient: borders that start or end on an axis, where zeros are edges; cells that are zeros; numbers that
/// overflow on one of the two paths alone.
fn short_tables(r: &mut Random) -> Vec<(usize, Vec<f64>, usize, usize)> {
    let mut tables = vec![
        (3, vec![-1.0, -2.0, 1.0, 1.5, -0.24, 0.0, 0.0, 0.0, -0.0, 0.0, -0.0, 0.0], 3, 2),
        (3, vec![-0.5, -4.0, 1.0, -0.5, -0.0, -0.26, 0.0, 0.0, -0.0, 0.0, -0.0, -0.0], 2, 2),
        (3, vec![3.0, -4.0, 2.5, -0.5, -0.39, 0.0, 0.0, 0.27, -0.0, -0.0, -0.0, 0.0], 3, 2),
        (3, vec![1.0, -1.0, -0.0, 0.0, -0.25, 0.0, 0.0, 0.0, 0.0, -0.0, 0.0, -0.0], 3, 3),
        (3, vec![1e-13, -2.3e16, 2.6e16, 0.3, -12.2, -2.3, -0.6, 0.3, 0.15, 0.0, -0.0, -0.0], 2, 2),
    ];
    for _ in 0..400 {
        let (width, height) = (2 + r.below(2), 2 + r.below(2));
        let focal = |r: &mut Random| [1.0, 2.0, 4.0, 0.5, 3.0][r.below(5)] * [1.0, -1.0][r.below(2)];
        let centre = |r: &mut Random, n: usize| [-0.5, 0.5, n as f64 - 0.5, 1.0][r.below(4)];
        let mut params = vec![focal(r), focal(r), centre(r, width), centre(r, height)];
        for _ in 0..5 {
            params.push([0.0, -0.0, (r.below(101) as f64 - 50.0) / 100.0][r.below(3)]);
        }
        for _ in 0..3 {
            params.push([0.0, -0.0][r.below(2)]);
        }
        tables.push((3, params, width, height));
    }
    tables
}

/// Tables whose borders have samples that haven't settled: the first, one between, the last, and all, of kb and of bc.
fn unsettled_tables() -> Vec<(usize, Vec<f64>, usize, usize)> {
    vec![
        (2, vec![3.69, 7.16, 1.65, 1.64, 0.02, -0.54, 0.0, 0.0], 3, 2),
        (2, vec![5.5, 4.7, 0.7, -0.1, -0.4, -0.7, 0.0, 0.0], 3, 2),
        (2, vec![7.7, 6.7, -0.2, 0.5, -0.2, -1.2, 0.0, 0.0], 3, 2),
        (2, vec![1.1035, 0.9418, 0.3335, 0.5, 0.106, -0.2004, 0.0025, -0.5064], 2, 2),
        (2, vec![25.0, 25.0, 16.0, 12.0, -1.6, 0.0, 0.0, 0.2], 32, 24),
        (3, vec![2.21, 2.41, 0.69, -0.14, -0.74, -0.37, 0.0, 0.01, -0.23, 0.05, 0.0, 0.0], 3, 2),
        (3, vec![3.68, 6.69, 0.58, 1.13, 0.59, 0.52, 0.0, 0.0, -0.1, -0.49, -0.63, -0.16], 3, 2),
        (3, vec![1.19, 4.82, 0.65, 0.11, 0.66, -0.51, -0.02, -0.04, 0.16, -0.13, 1.0, 0.0], 3, 2),
        (3, vec![4.81, 4.11, 0.44, -0.41, -0.95, -0.07, -0.04, 0.0, 0.06, 0.0, 0.0, -0.36], 3, 2),
        (3, vec![1.54, 1.54, 0.5, 0.5, -0.85, 0.16, 0.04, 0.07, -0.06, -0.26, 0.33, 0.9], 2, 2),
        (3, vec![12.0, 12.0, 16.0, 12.0, 0.4, -1.2, 0.0, 0.0, -0.2, 0.0, 2.1, 0.0], 32, 24),
        (4, vec![3.68, 6.69, 0.58, 1.13, 0.59, 0.52, 0.0, 0.0, -0.1, -0.49, -0.63, -0.16, 0.01, 0.0, -0.02, 0.01], 3, 2),
        (4, vec![9.0, 9.0, 16.0, 12.0, 0.0, 0.0, 0.0, 0.0, 0.0, 0.0, 0.0, 0.0, 0.4, -0.3, -0.5, 0.1], 32, 24),
    ]
}

/// The sizes that no printer takes, the first the Rust's own test; two borders whose last sample is the only one that hasn't
/// settled, of which the second has one x in all its points; and one whose sample 3 hasn't settled and has no point.
fn fixed_tables(r: &mut Random) -> Vec<Asked> {
    let of = |model: usize, params: &[f64], width: usize, height: usize| Asked { model, params: params.to_vec(), width, height };
    let kb = [1000.0, 1000.0, 320.0, 280.0, 0.1, 0.01, 0.001, 0.0001];
    let mut fixed = vec![of(2, &kb, 640, 480), of(2, &kb, 640, 480)];
    for (model, width, height) in [(0, 640, 480), (1, 640, 480), (3, 640, 480), (4, 640, 480), (0, 4096, 2), (4, 2, 4096)] {
        let params = valid_camera(r, model, width as f64, height as f64);
        fixed.push(of(model, &params[..COUNTS[model]], width, height));
    }
    fixed.push(of(2, &[7.7, 6.7, -0.2, 0.5, -0.2, -1.2, 0.0, 0.0], 3, 2));
    fixed.push(of(3, &[4500000.0, 0.0103, -2.711e16, 0.5, 3.68e-12, 0.0, 0.0, 0.0, 0.0, 0.0, 0.0, 0.0], 3, 2));
    fixed.push(of(2, &[2.31, 6.94, 1.19, -0.33, -1.7, 1.2, 0.0, 0.2], 3, 2));
    fixed
}

/// Tables for sixteen bits: one of 640 by 480; affine ones whose numbers lie in the middle of two thirty-seconds every other time, that
/// end at 1022.5 and at 1024; and eucm ones next to each other, of which the first is the last that has a table, above and below.
fn sixteen_tables() -> Vec<Asked> {
    let of = |model: usize, params: &[f64], width: usize, height: usize| Asked { model, params: params.to_vec(), width, height };
    let plain = [1.0, 1.0, 0.0, 0.0];
    let mut fixed = vec![of(2, &[1000.0, 1000.0, 320.0, 280.0, 0.1, 0.01, 0.001, 0.0001], 640, 480)];
    for (width, height) in [(129, 2), (2, 129), (682, 2), (683, 2), (2, 683)] {
        fixed.push(of(0, &plain, width, height));
    }
    for s in [1649.8442407855762, 1649.8442407855764] {
        fixed.push(of(1, &[s, 1.0, s, 0.5, 0.5, 1.0], 3, 2));
    }
    for s in [2314.9399826874064, 2314.939982687407] {
        fixed.push(of(1, &[1.0, s, 0.5, -0.75 * s, 0.5, 1.0], 2, 2));
    }
    fixed
}

fn asked(r: &mut Random) -> Asked {
    if r.one_in(8) {
        let all = if r.one_in(3) { unsettled_tables() } else { refused_tables() };
        let (model, params, width, height) = all[r.below(all.len())].clone();
        return Asked { model, params, width, height };
    }
    Asked::random(r)
}

/// A fresh job into junk, and the build that it begins; none if the job is refused.
fn begun<T: Cell>(r: &mut Random, asked: Asked, strict: bool) -> Result<Option<Build<T>>, String> {
    let size = [asked.width as u32, asked.height as u32];
    let mut job = Lent::new(r, record::BYTES);
    let mut owed_job = job.clone();
    let params = &handed(&asked.params)[..8 * asked.params.len()];
    let given = lens::job_new(asked.model as u8, params, size, strict as u8, job.lend());
    let refused = asked.refused_at_once();
    if refused.is_none() {
        owed_job.put(&Record::fresh(asked.model, asked.filled(), size, strict as u8).bytes());
    }
    if given != refused.unwrap_or(0) || job != owed_job {
        return Err(format!("fresh job of {:?}: gave {}, owed {:?}", asked.text(), given, refused));
    }
    if refused.is_some() {
        return Ok(None);
    }
    let built = asked.built();
    let table = Lent::new(r, built.cells.len());
    let ours = Kept { job, table, answer: Lent::new(r, record::ANSWER_BYTES) };
    let (swept, end, cells) = (swept(&built), T::end(&built, strict), T::cells(&built));
    Ok(Some(Build { asked, strict, built, cells, swept, end, done: 0, owed: ours.clone(), ours, short: [0; 2] }))
}

/// All turns of a build, and some more once it can't go on.
fn in_turns<T: Cell>(r: &mut Random, build: &mut Build<T>, tally: &mut Tally) -> Result<(), String> {
    let all = build.built.samples.len() + build.built.cells.len() / 2;
    // unit by unit only what has few
    let style = if all < 700 { r.below(4) } else { [0, 2, 2, 3][r.below(4)] };
    let mut after = 0;
    while after < 5 {
        if r.one_in(5) {
            build.move_on(r);
            tally.moves += 1;
        }
        if r.one_in(4) {
            build.junk_answer(r);
            match build.hostile(r)? {
                0 => tally.taken += 1,
                number => tally.calls_refused[number as usize] += 1,
            }
        }
        if r.one_in(16) {
            build.of_before([0, 1, 20, u64::MAX][r.below(4)])?;
            tally.of_before += 1;
        }
        let ended = build.done == build.end.0;
        let allowance = if ended { [0, 1, 2, u64::MAX][r.below(4)] } else { allowance(r, style, build) };
        build.junk_answer(r);
        let number = build.turn(allowance)?;
        tally.turns += 1;
        tally.turns_refused[number as usize] += (number != 0) as u64;
        after += ended as u32;
    }
    tally.units_refused[build.end.1 as usize] += (build.end.1 != 0) as u64;
    Ok(())
}

/// A build from a fresh job to its end, if the job isn't refused and nothing differs.
fn build<T: Cell>(oracle: &mut Oracle, asked: Asked, strict: bool, tally: &mut Tally) -> Option<Build<T>> {
    let r = &mut oracle.random;
    let outcome = begun::<T>(r, asked, strict).and_then(|begun| match begun {
        None => Ok(None),
        Some(mut build) => in_turns(r, &mut build, tally).map(|_| Some(build)),
    });
    if let Err(what) = outcome {
        oracle.differs(what);
        return None;
    }
    let build = outcome.unwrap()?;
    tally.tables += 1;
    tally.units += build.done as u64;
    tally.short.builds += without_quotient(&build.asked) as u64;
    tally.short.turns += build.short[0];
    tally.short.other_zeros += build.short[1];
    let finished = build.end.1 == 0;
    tally.finished += finished as u64;
    tally.largest += (finished && [build.asked.width, build.asked.height] == [640, 480]) as u64;
    Some(build)
}

impl Unsettled {
    fn note<T>(&mut self, build: &Build<T>) {
        let border = build.built.samples.len();
        let swept = build.swept[build.done.min(border)];
        if build.done >= border {
            let last_of_all = swept.first as usize == border;
            self.first[if last_of_all { 3 } else { swept.first.min(2) as usize }] += 1;
            self.last += !build.built.samples[border - 1].settled as u64;
            self.samples += swept.unsettled as u64;
        }
    }

    /// Of a strict build, and of the same that isn't.
    fn note_strict<T>(&mut self, strict: &Build<T>, other: &Build<T>) {
        let (done, number) = strict.end;
        self.strict[(number == 0) as usize] += 1;
        self.before_8 += ([other.end.1, number] == [8, 18]) as u64;
        let refused = strict.built.samples.get(done);
        self.own_number += refused.map_or(false, |s| !s.settled && s.number != 0) as u64;
    }
}

/// The updates of undistort at the four corners, by the Rust asked anew.
fn corner_updates(asked: &Asked) -> u64 {
    let (right, bottom) = (asked.width as f64 - 0.5, asked.height as f64 - 0.5);
    let corners = [[-0.5, -0.5], [-0.5, bottom], [right, -0.5], [right, bottom]];
    corners.iter().map(|&pixel| Question::right(asked.model, 1, asked.filled(), pixel).traced().1.updates as u64).sum()
}

impl Corners {
    /// Tells a difference: the Rust's sweep takes exactly the corners' updates more than ours, of which the job tells.
    fn note<T>(&mut self, build: &Build<T>) -> Result<(), String> {
        if build.done < build.built.samples.len() {
            return Ok(());
        }
        let ours = Record::read(build.ours.job.held()).updates as u64;
        let (rust, corners) = (build.built.updates_of_rust as u64, corner_updates(&build.asked));
        self.borders += 1;
        self.taking += (corners > 0) as u64;
        self.rust += rust;
        self.ours += ours;
        self.corners += corners;
        match rust == ours + corners {
            true => Ok(()),
            false => Err(format!("{:?}: the Rust's sweep takes {}, ours {}, corners {}", build.asked.text(), rust, ours, corners)),
        }
    }
}

/// A table that isn't strict, and the same strict if a sample hasn't settled, a refused one among them, or now and then. Gives the
/// first if it is finished.
fn both(oracle: &mut Oracle, asked: Asked, tally: &mut Tally) -> Option<Table> {
    let size = [asked.width as u32, asked.height as u32];
    let first = build::<u32>(oracle, asked.clone(), false, tally)?;
    if let Err(what) = tally.corners.note(&first) {
        oracle.differs(what);
    }
    tally.unsettled.note(&first);
    let unsettled = first.built.samples.iter().take(first.end.0 + 1).any(|s| !s.settled);
    if unsettled || oracle.random.one_in(4) {
        if let Some(strict) = build::<u32>(oracle, asked, true, tally) {
            tally.unsettled.note_strict(&strict, &first);
        }
    }
    if first.end.1 != 0 {
        return None;
    }
    Some(Table { cells: first.ours.table.held().to_vec(), region: first.built.region, size })
}

/// Cells of sixteen bits that were compared: how many, and of their numbers those of ties, and the first and the last that there is.
#[derive(Default)]
struct Sixteen {
    cells: u64,
    ties: u64,
    least: u64,
    most: u64,
}

impl Sixteen {
    fn note(&mut self, build: &Build<i16>) {
        let cells = build.done.saturating_sub(build.built.samples.len());
        self.cells += cells as u64;
        let done = build.built.pixels[..cells].iter().flatten().flatten();
        self.ties += done.filter(|&&x| is_tie(x)).count() as u64;
        let numbers = &build.cells[..2 * cells];
        self.least += numbers.iter().filter(|&&n| n == i16::MIN).count() as u64;
        self.most += numbers.iter().filter(|&&n| n == i16::MAX).count() as u64;
    }
}

impl Oracle {
    /// Builds tables of sixteen bits, every fourth strict.
    pub fn turns16(&mut self, tables: u64) {
        let (mut tally, mut sixteen) = (Tally::default(), Sixteen::default());
        let mut all = sixteen_tables();
        all.extend((0..tables).map(|_| asked(&mut self.random)));
        for asked in all {
            let strict = self.random.one_in(4);
            if let Some(build) = build::<i16>(self, asked, strict, &mut tally) {
                sixteen.note(&build);
            }
        }
        println!(
            "turns of sixteen bits: {} tables, {} finished, {} of these 640 by 480; {} turns, {} units, {} of them cells; numbers that \
             were ties {}, -32768: {}, 32767: {}; tables refused at a unit {}",
            tally.tables,
            tally.finished,
            tally.largest,
            tally.turns,
            tally.units,
            sixteen.cells,
            sixteen.ties,
            sixteen.least,
            sixteen.most,
            listed(&tally.units_refused)
        );
        println!(
            "turns of sixteen bits before any unit: refused {}; damaged records taken {}; jobs of releases before {}",
            listed(&tally.calls_refused),
            tally.taken,
            tally.of_before
        );
        self.met("ties, -32768, 32767", &[sixteen.ties, sixteen.least, sixteen.most], &[0, 1, 2]);
        self.met("turns of sixteen bits refused at a unit", &tally.turns_refused, &[8, 10, 11, 16, 18, 19]);
        self.met("turns of sixteen bits before any unit", &tally.calls_refused, &[1, 4, 5, 6, 7, 13]);
        self.met("finished tables of sixteen bits, 640 by 480", &[0, tally.largest], &[1]);
    }

    /// Builds tables, and hands each that is finished to `then`.
    pub fn turns(&mut self, tables: u64, mut then: impl FnMut(&mut Oracle, Table)) {
        let mut tally = Tally::default();
        for asked in fixed_tables(&mut self.random) {
            if let Some(table) = both(self, asked, &mut tally) {
                then(self, table);
            }
        }
        for (model, params, width, height) in short_tables(&mut self.random) {
            both(self, Asked { model, params, width, height }, &mut tally);
        }
        for _ in 0..tables {
            let asked = asked(&mut self.random);
            if let Some(table) = both(self, asked, &mut tally) {
                then(self, table);
            }
        }
        println!(
            "turns: {} tables, {} finished, {} of these 640 by 480; {} turns, {} units, moved {} times; tables refused at a unit {}",
            tally.tables,
            tally.finished,
            tally.largest,
            tally.turns,
            tally.units,
            tally.moves,
            listed(&tally.units_refused)
        );
        println!("turns before any unit: refused {}; damaged records taken {}", listed(&tally.calls_refused), tally.taken);
        let Unsettled { first, last, samples, strict, before_8, own_number } = &tally.unsettled;
        println!(
            "borders done, not strict: all settled {}, first unsettled sample 1: {}, a later one: {}, the last: {}; the last one \
             unsettled {}; such samples {}; strict builds: finished {}, others {}; 18 where others are refused 8: {}, an unsettled \
             sample's own number: {}",
            first[0], first[1], first[2], first[3], last, samples, strict[1], strict[0], before_8, own_number
        );
        let Short { builds, turns, other_zeros } = &tally.short;
        println!(
            "bc, k4 to k6 zeros: {} builds, {} turns; behind {} of these an edge of the record is a zero of another sign than the Rust's",
            builds, turns, other_zeros
        );
        self.met("bc, k4 to k6 zeros: builds, turns with the Rust's edges, with another zero", &[*builds, turns - other_zeros, *other_zeros], &[0, 1, 2]);
        let Corners { borders, taking, rust, ours, corners } = &tally.corners;
        println!(
            "corners once: {} borders, {} with updates at a corner; updates of the Rust's sweeps {}, of ours {}, of the corners {}",
            borders, taking, rust, ours, corners
        );
        println!("jobs of releases before, refused 13 by the check word and 7 by the length: {}", tally.of_before);
        self.met("corners with updates, and without", &[*taking, borders - taking], &[0, 1]);
        self.met("jobs of releases before", &[tally.of_before], &[0]);
        self.met("first unsettled sample: none, 1, a later one, the last", first, &[0, 1, 2, 3]);
        self.met("the last sample unsettled", &[0, *last], &[1]);
        self.met("18 before the region's 8, its own number before 18", &[*before_8, *own_number], &[0, 1]);
        self.met("strict builds", strict, &[0, 1]);
        self.met("turns refused at a unit", &tally.turns_refused, &[8, 10, 11, 12, 16, 18]);
        self.met("turns before any unit", &tally.calls_refused, &[1, 4, 5, 6, 7, 13]);
        self.met("finished tables of 640 by 480", &[0, tally.largest], &[1]);
        self.met("damaged records taken", &[0, tally.taken], &[1]);
    }

    /// Fresh jobs asked for with anything wrong.
    pub fn jobs(&mut self, jobs: u64) {
        let mut numbers = [0; NUMBERS];
        for _ in 0..jobs {
            let r = &mut self.random;
            let mut q = damage::damaged_camera(r);
            q.answer_length = if r.one_in(4) { r.below(record::BYTES + STRIP) } else { record::BYTES };
            let side = [0, 1, 2, 4096, 4097, u32::MAX][r.below(6)];
            let size = if r.one_in(4) { [side, 2] } else { [2 + r.below(4095) as u32, 2 + r.below(4095) as u32] };
            let strict = if r.one_in(6) { r.bits() as u8 } else { r.below(2) as u8 };
            let number = q.camera_number().unwrap_or(match () {
                _ if !record::sized(size[0], size[1]) => 6,
                _ if q.answer_length != record::BYTES => 7,
                _ if strict > 1 => 13,
                _ => 0,
            });
            let mut job = Lent::new(r, record::BYTES);
            let mut owed = job.clone();
            if number == 0 {
                owed.put(&Record::fresh(q.model as usize, q.params, size, strict).bytes());
            }
            let params = &handed(&q.params)[..q.params_length];
            let given = lens::job_new(q.model, params, size, strict, job.lend_of_length(q.answer_length));
            numbers[number as usize] += 1;
            if given != number || job != owed {
                let asked = format!("{}, {:?}, strict mark {}", crate::input(&q), size, strict);
                self.differs(format!("fresh job {}: gave {}, owed {}", asked, given, number));
            }
        }
        println!("fresh jobs: {}, answered {}, refused {}", jobs, numbers[0], listed(&numbers));
        self.met("fresh jobs", &numbers, &[0, 1, 3, 4, 5, 6, 7, 13]);
    }
}
