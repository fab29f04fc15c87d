// What a unit and a turn cost through C, for bench/run to count.
//   cases MODEL KIND: writes records, one a line in hexadecimal, whose unit but one is of that kind, `sample` or `cell`, and the next one
//     too. A sample of a model that searches is one of the most updates that there can be. `short_sample` and `short_cell` are these of bc
//     cameras whose k4, k5 and k6 are zeros, `full_sample` and `full_cell` those of the others; `again` writes fresh records of such a bc
//     camera whose first sample is refused with 11, since nothing is finite from the first update on, in either engine
//   count ALLOWANCE N FILE CASE AHEAD: N turns of that allowance, each from the record on that line after so many units ahead
//   count16: the same by lens_turn16
#[path = "../oracle/compare/cases.rs"]
#[allow(dead_code)]
mod cases;
#[allow(dead_code)]
mod given;

use cases::{valid_camera, Random};
use given::{place, MODELS};
use std::hint::black_box;

extern "C" {
    fn lens_job_new(model: u8, params: *const u8, handed: usize, width: u32, height: u32, strict: u8, job: *mut u8, lent: usize) -> u8;
    fn lens_turn(job: *mut u8, job_length: usize, table: *mut f32, places: usize, allowance: u64, answer: *mut u8, lent: usize) -> u8;
    fn lens_turn16(job: *mut u8, job_length: usize, table: *mut i16, places: usize, allowance: u64, answer: *mut u8, lent: usize) -> u8;
}

const JOB: usize = header_number(b"#define LENS_JOB_BYTES ");
const ANSWER: usize = header_number(b"#define LENS_TURN_BYTES ");
const UPDATES: usize = header_number(b"#define LENS_TURN_UPDATES ");
const SIDE: usize = 16;
const SAMPLES: usize = 4 * SIDE;
const CASES: usize = 16;
const LAST: usize = 4;

/// A number that include/lens.h defines.
const fn header_number(line: &[u8]) -> usize {
    let header = include_bytes!("../include/lens.h");
    let mut at = 0;
    while at + line.len() < header.len() {
        let mut k = 0;
        while k < line.len() && header[at + k] == line[k] {
            k += 1;
        }
        if k == line.len() {
            let mut number = 0;
            while header[at + k].is_ascii_digit() {
                number = 10 * number + (header[at + k] - b'0') as usize;
                k += 1;
            }
            return number;
        }
        at += 1;
    }
    panic!("include/lens.h has no such number")
}

struct Head {
    job: [u8; JOB],
    table: [f32; 2 * SIDE * SIDE],
    table16: [i16; 2 * SIDE * SIDE],
    answer: [u8; ANSWER],
}

impl Head {
    fn turn(&mut self, allowance: u64) -> u8 {
        let (j, t, a) = (&mut self.job, &mut self.table, &mut self.answer);
        unsafe { lens_turn(j.as_mut_ptr(), j.len(), t.as_mut_ptr(), t.len(), allowance, a.as_mut_ptr(), a.len()) }
    }
    fn turn16(&mut self, allowance: u64) -> u8 {
        let (j, t, a) = (&mut self.job, &mut self.table16, &mut self.answer);
        unsafe { lens_turn16(j.as_mut_ptr(), j.len(), t.as_mut_ptr(), t.len(), allowance, a.as_mut_ptr(), a.len()) }
    }
    fn updates(&self) -> u64 {
        let mut eight = [0; 8];
        eight.copy_from_slice(&self.answer[UPDATES..UPDATES + 8]);
        u64::from_le_bytes(eight)
    }
}

fn blank() -> Head {
    Head { job: [0; JOB], table: [0.0; 2 * SIDE * SIDE], table16: [0; 2 * SIDE * SIDE], answer: [0; ANSWER] }
}

fn print(job: &[u8; JOB]) {
    println!("{}", job.iter().map(|b| format!("{:02x}", b)).collect::<String>());
}

/// The records of one camera that are looked for, at most four, each one unit ahead of the unit that is meant. `last`: only the one for the
/// last sample, which closes the region as well.
fn wanted(model: usize, cell: bool, last: bool, params: &rust_text::Params, r: &mut Random) -> Vec<[u8; JOB]> {
    let mut head = blank();
    let bytes: Vec<u8> = params[..rust_text::COUNTS[model]].iter().flat_map(|x| x.to_le_bytes()).collect();
    let started = unsafe {
        // not strict: samples of the most updates are looked for, and some of these haven't settled
        lens_job_new(model as u8, bytes.as_ptr(), bytes.len(), SIDE as u32, SIDE as u32, 0, head.job.as_mut_ptr(), head.job.len())
    };
    assert_ne!(started, 7, "the archive doesn't take LENS_JOB_BYTES of include/lens.h");
    let mut found = vec![];
    if started != 0 {
        return found;
    }
    let mut ahead = head.job;
    for unit in 0..SAMPLES + SIDE * SIDE {
        let (before, updates) = (head.job, head.updates());
        if head.turn(1) != 0 || found.len() == 4 {
            break;
        }
        let most = head.updates() - updates == rust_text::LIMITS[model];
        let sampled = 0 < unit && unit < SAMPLES && most && if last { unit == SAMPLES - 1 } else { r.one_in(4) };
        if if cell { unit > SAMPLES && r.one_in(64) } else { sampled } {
            found.push(ahead);
        }
        ahead = before;
    }
    found
}

/// Whether a camera is of the part of bc's that a kind names, if it names one.
fn meant(kind: &str, params: &rust_text::Params) -> bool {
    let zeros = params[9..12].iter().all(|&k| k == 0.0);
    match kind.split_once('_') {
        Some((part, _)) => zeros == (part == "short"),
        None => true,
    }
}

fn write_again() {
    let mut r = Random(20261115);
    for _ in 0..CASES {
        let mut params = valid_camera(&mut r, 3, SIDE as f64, SIDE as f64);
        params[9..12].fill(0.0);
        params[4] = f64::MAX;
        let mut head = blank();
        let bytes: Vec<u8> = params[..rust_text::COUNTS[3]].iter().flat_map(|x| x.to_le_bytes()).collect();
        let started = unsafe { lens_job_new(3, bytes.as_ptr(), bytes.len(), SIDE as u32, SIDE as u32, 0, head.job.as_mut_ptr(), head.job.len()) };
        assert_eq!(started, 0);
        print(&head.job);
        assert_eq!(head.turn(1), 11);
    }
}

fn write_cases(model: usize, kind: &str) {
    let cell = kind.ends_with("cell");
    let mut r = Random(20261115);
    let mut found = 0;
    while found < CASES {
        let mut params = valid_camera(&mut r, model, SIDE as f64, SIDE as f64);
        if !meant(kind, &params) {
            continue;
        }
        if !cell {
            // For long searches the coefficients are stretched, as no settled lens has them.
            let stretch = r.between(1.0, 20.0);
            params[4..].iter_mut().for_each(|p| *p *= if model >= 2 { stretch } else { 1.0 });
        }
        for job in wanted(model, cell, found >= CASES - LAST, &params, &mut r).iter().take(CASES - found) {
            print(job);
            found += 1;
        }
    }
}

fn count(turn: fn(&mut Head, u64) -> u8, allowance: u64, n: usize, record: &str, ahead: u64) {
    let byte = |i: usize| u8::from_str_radix(&record[2 * i..2 * i + 2], 16).expect("a byte");
    let mut job = [0; JOB];
    (0..JOB).for_each(|i| job[i] = byte(i));
    let mut head = blank();
    head.job = job;
    head.turn(ahead);
    job = head.job;
    let turn = black_box(turn);
    for _ in 0..n {
        head.job = job;
        black_box(turn(&mut head, black_box(allowance)));
    }
}

fn main() {
    let args: Vec<String> = std::env::args().skip(1).collect();
    let number = |i: usize| args[i].parse::<usize>().expect("a count");
    match args[0].as_str() {
        "cases" if args[2] == "again" => write_again(),
        "cases" => write_cases(place(&MODELS, &args[1]), &args[2]),
        "count" | "count16" => {
            let file = std::fs::read_to_string(&args[3]).expect("the cases");
            let turn = if args[0] == "count" { Head::turn } else { Head::turn16 };
            count(turn, number(1) as u64, number(2), file.lines().nth(number(4)).expect("a case"), number(5) as u64)
        }
        _ => panic!("cases, count or count16"),
    }
}
