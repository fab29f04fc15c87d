//! The gate's calls of what a head calls (crates/test_head_calls): jobs, turns of both kinds, lists, lookups. Those
//! that can't be said in Rust are left out: a model that is none, a mark that is no bool, an answer of another length.
//! Jobs, cells and answers are compared bit by bit.
use crate::vectors::{bits, camera_of, double, number_of, observe, text_of, words, Owed, RECORD};
use lens::{Job, Number, Pixel, Point, Progress, Refusal, Table, Turn};
use std::collections::BTreeMap;

const FILL: u8 = 0xa5;
const ANSWER: usize = 48;

/// A table's number as the gate writes it: the bits of the f32 that is the same number.
trait Spelled: Number + PartialEq {
    fn bits(self) -> u32;
    fn of_bits(bits: u32) -> Self;
}

impl Spelled for f32 {
    fn bits(self) -> u32 {
        self.to_bits()
    }
    fn of_bits(bits: u32) -> f32 {
        f32::from_bits(bits)
    }
}

impl Spelled for i16 {
    fn bits(self) -> u32 {
        f32::from(self).to_bits()
    }
    fn of_bits(bits: u32) -> i16 {
        f32::from_bits(bits) as i16
    }
}

/// What lasts from line to line.
struct Buffers {
    read: [u8; 512],
    lent: [u8; 512],
    table: [f32; 64],
    table16: [i16; 64],
}

impl Buffers {
    fn new() -> Buffers {
        Buffers { read: [FILL; 512], lent: [FILL; 512], table: [12345.0; 64], table16: [12345; 64] }
    }
}

/// Bytes out of pairs of digits, or as they were.
fn bytes_of(field: &str, before: &[u8]) -> Vec<u8> {
    if field == "kept" {
        return before.to_vec();
    }
    field.as_bytes().chunks(2).map(|two| u8::from_str_radix(std::str::from_utf8(two).unwrap(), 16).unwrap()).collect()
}

/// Numbers of a table, by their bits.
fn numbers_of<N: Spelled>(field: &str, before: &[N]) -> Vec<u32> {
    if field == "kept" {
        return before.iter().map(|n| n.bits()).collect();
    }
    let word = |eight| u32::from_str_radix(std::str::from_utf8(eight).unwrap(), 16).unwrap();
    field.as_bytes().chunks(8).map(word).collect()
}

fn words_of(progress: Progress) -> [u64; 5] {
    let Progress { done, units, updates, unsettled, first } = progress;
    assert_ne!(first, Some(0));
    [done, units, updates, unsettled, first.unwrap_or(0)]
}

/// A turn of saved bytes: number, job, cells and the answer's six words, if there is an answer.
fn turned<N: Spelled>(bytes: &[u8], cells: &mut [N], units: u64) -> (u8, Vec<u8>, Option<[u64; 6]>) {
    let mut job = match Job::from_bytes(bytes, cells) {
        Ok(job) => job,
        Err(refusal) => return (number_of(refusal), bytes.to_vec(), None),
    };
    assert_eq!((job.as_bytes().len(), job.numbers()), (bytes.len(), cells.len()));
    let (number, status) = match job.turn(cells, units) {
        Ok(Turn::Running(progress)) => {
            assert_eq!((job.progress(), job.region()), (progress, None));
            (0, 0)
        }
        Ok(Turn::Finished(region)) => {
            assert_eq!(job.region(), Some(region));
            (0, 1)
        }
        Err(refusal) => (number_of(refusal), 2),
    };
    let [done, units, updates, unsettled, first] = words_of(job.progress());
    (number, job.as_bytes().to_vec(), Some([status, done, units, updates, unsettled, first]))
}

/// Compares a turn with its line. Job and cells as they are owed, and `None` if the call can't be said here.
fn turn<N: Spelled>(q: &[u64], lent: &[u8], table: &[N], owes: &[&str]) -> (Vec<u8>, Vec<N>, Option<usize>) {
    let (job, cells) = (&lent[..q[4] as usize], &table[..q[6] as usize]);
    let (job_owed, cells_owed) = (bytes_of(owes[1], job), numbers_of(owes[2], cells));
    let compared = (q[5] as usize == ANSWER).then(|| {
        let mut mine = cells.to_vec();
        let (number, bytes, said) = turned(job, &mut mine, q[11]);
        assert_eq!((number.to_string().as_str(), &bytes), (owes[0], &job_owed));
        assert_eq!(mine.iter().map(|n| n.bits()).collect::<Vec<_>>(), cells_owed);
        let said = said.map(|words| words.into_iter().flat_map(u64::to_le_bytes).collect::<Vec<u8>>());
        assert_eq!(said.unwrap_or_else(|| vec![FILL; ANSWER]), bytes_of(owes[3], &[FILL; ANSWER]));
        1
    });
    (job_owed, cells_owed.into_iter().map(N::of_bits).collect(), compared)
}

/// Each bit of the job flipped in turn.
fn flips<N: Spelled>(q: &[u64], lent: &[u8], table: &[N], owed: &mut Owed) -> usize {
    let count = 8 * q[4] as usize;
    for bit in 0..count {
        let mut damaged = lent.to_vec();
        damaged[bit / 8] ^= 1 << (bit % 8);
        let owes: Vec<&str> = owed.next().split('\t').collect();
        assert_eq!(turn(q, &damaged, table, &owes).2, Some(1));
    }
    assert_eq!(owed.next(), format!("bits\t{count}"));
    count
}

/// A fresh job; `None` if it can't be said here.
fn job_new(q: &[u64], read: &[u8]) -> Option<Result<Vec<u8>, Refusal>> {
    let camera = camera_of(q[2] % 256, read.get(..q[3] as usize)?)?;
    let (width, height, mark) = (q[7] as u32, q[8] as u32, q[11] % 256);
    let begin = match mark {
        _ if q[4] as usize != Job::<f32>::BYTES => return None,
        0 => Job::<f32>::new,
        1 => Job::<f32>::strict,
        _ => return None,
    };
    Some(begin(&camera, width, height).map(|job| {
        assert_eq!((job.width(), job.height(), job.is_strict()), (width, height, mark == 1));
        assert_eq!((job.progress().done, job.region()), (0, None));
        job.as_bytes().to_vec()
    }))
}

/// A lookup; `None` if it can't be said here.
fn lookup(q: &[u64], read: &[u8], table: &[f32]) -> Option<Result<Pixel, Refusal>> {
    if (q[3], q[5]) != (32, 16) {
        return None;
    }
    let region = [0, 8, 16, 24].map(|at| double(read, at)).into();
    let point = Point::new(f64::from_bits(q[9]), f64::from_bits(q[10]));
    Some(Table::new(table.get(..q[6] as usize)?, region, q[7] as u32, q[8] as u32).lookup(point))
}

/// Puts the words of a line, as far as they fit.
fn put(q: &[u64], mut one: impl FnMut(usize, u64)) {
    let words = q[3..].iter().take(q[2] as usize);
    words.enumerate().for_each(|(i, word)| one(q[1] as usize + i, *word));
}

fn put_bytes(bytes: &mut [u8], q: &[u64]) {
    put(q, |at, word| {
        if let Some(to) = bytes.get_mut(8 * at..8 * at + 8) {
            to.copy_from_slice(&word.to_le_bytes());
        }
    });
}

impl Buffers {
    /// Does what a line says, and compares; how many calls were compared, `None` if this one can't be said.
    fn answer(&mut self, q: &[u64], owed: &mut Owed) -> Option<usize> {
        match q[0] {
            0 => *self = Buffers::new(),
            1 => put_bytes(&mut self.read, q),
            2 => put_bytes(&mut self.lent, q),
            3 => put(q, |at, word| self.table[at] = f64::from_bits(word) as f32),
            8 => return Some(flips(q, &self.lent, &self.table, owed)),
            10 => return Some(flips(q, &self.lent, &self.table16, owed)),
            _ => {
                let owes: Vec<&str> = owed.next().split('\t').collect();
                return self.call(q, &owes);
            }
        }
        Some(0)
    }

    fn call(&mut self, q: &[u64], owes: &[&str]) -> Option<usize> {
        if owes == ["bad"] || owes[0] == "255" {
            return None; // no call
        }
        let stays = q[1] != 0;
        match q[0] {
            4 | 6 => {
                let lent = &mut self.lent[..q[4] as usize];
                let after = bytes_of(owes[1], lent);
                let compared =
                    if q[0] == 4 { compare_new(q, &self.read, owes) } else { list(q, &self.read, lent, owes) };
                if stays {
                    lent.copy_from_slice(&after);
                }
                compared
            }
            5 => {
                let (job, cells, compared) = turn(q, &self.lent, &self.table, owes);
                if stays {
                    self.lent[..job.len()].copy_from_slice(&job);
                    self.table[..cells.len()].copy_from_slice(&cells);
                }
                compared
            }
            9 => {
                let (job, cells, compared) = turn(q, &self.lent, &self.table16, owes);
                if stays {
                    self.lent[..job.len()].copy_from_slice(&job);
                    self.table16[..cells.len()].copy_from_slice(&cells);
                }
                compared
            }
            _ => {
                let looked = lookup(q, &self.read, &self.table)?;
                assert_eq!(looked.err().map_or(0, number_of).to_string(), owes[0]);
                let pixel = looked
                    .map_or(vec![FILL; 16], |p| bits(&[p.u, p.v]).into_iter().flat_map(u64::to_le_bytes).collect());
                assert_eq!(pixel, bytes_of(owes[1], &[FILL; 16]));
                Some(1)
            }
        }
    }
}

fn compare_new(q: &[u64], read: &[u8], owes: &[&str]) -> Option<usize> {
    match job_new(q, read)? {
        Ok(bytes) => assert_eq!(("0", bytes), (owes[0], bytes_of(owes[1], &[]))),
        Err(refusal) => assert_eq!([&number_of(refusal).to_string(), "kept"], owes),
    }
    Some(1)
}

fn list(q: &[u64], read: &[u8], lent: &[u8], owes: &[&str]) -> Option<usize> {
    let camera = camera_of(q[2] % 256, read.get(..q[3] as usize)?)?;
    if lent.len() % RECORD != 0 {
        return None;
    }
    let owed = if owes[0] == "0" { Ok(bytes_of(owes[1], lent)) } else { Err(owes[0].parse().unwrap()) };
    observe(&camera, lent, owed);
    Some(1)
}

#[test]
fn answers_are_those_of_the_gate() {
    let (asked, answers) = (text_of("crates/test_head_calls/stdin"), text_of("crates/test_head_calls/stdout"));
    let mut owed = Owed::of(&answers);
    let mut buffers = Buffers::new();
    let mut compared: BTreeMap<u64, usize> = BTreeMap::new();
    let mut left_out = 0;
    for line in asked.lines() {
        match words(line) {
            Some(q) if q.len() == 12 => match buffers.answer(&q, &mut owed) {
                Some(count) => *compared.entry(q[0]).or_default() += count,
                None => left_out += 1,
            },
            // a heading, or what is no call
            _ => {
                owed.next();
            }
        }
    }
    assert!(owed.next().starts_with("lines\t") && owed.peek().is_none());
    let calls: usize = compared.values().sum();
    println!("{calls} calls compared, {left_out} left out; by what is done: {compared:?}");
    for what in 4..=10 {
        assert!(compared[&what] >= 100, "{what}");
    }
}
