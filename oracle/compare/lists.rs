// Lists of observations, each record against the Rust's undistort, with every byte that must stay.
use crate::cases::{valid, wild_place, Random};
use crate::damage::{damaged_camera, unfinished};
use crate::judge::{handed, Question};
use crate::lens;
use crate::memory::{Lent, STRIP};
use crate::record::bytes_of;
use crate::{input, listed, Oracle, NUMBERS};
use rust_text::NO_MODEL;

const RECORD: usize = 40;
const MOST_RECORDS: usize = 40;

/// What becomes of a record: its point or zeros, its flag, its number.
fn observed(camera: &Question, pixel: [f64; 2]) -> ([u8; 18], u8) {
    let owed = Question::right(camera.model as usize, 1, camera.params, pixel).owed();
    let mut found = [0; 18];
    if owed.number == 0 {
        found[..16].copy_from_slice(&owed.bytes[..16]);
        found[16] = owed.bytes[20];
    }
    found[17] = owed.number;
    (found, owed.number)
}

fn pixel(r: &mut Random, model: usize) -> [f64; 2] {
    let place = if r.one_in(2) { valid(r, model) } else { wild_place(r, model) };
    let mut pixel = place.pixel;
    if r.one_in(8) {
        pixel[r.below(2)] = unfinished(r);
    }
    pixel
}

/// Junk with pixels in it.
fn list(r: &mut Random, model: usize) -> (Lent<u8>, Vec<[f64; 2]>) {
    let pixels: Vec<[f64; 2]> = (0..r.below(MOST_RECORDS)).map(|_| pixel(r, model)).collect();
    let mut list = Lent::new(r, RECORD * pixels.len());
    for (record, pixel) in list.lend().chunks_exact_mut(RECORD).zip(&pixels) {
        record[..16].copy_from_slice(&bytes_of(pixel));
    }
    (list, pixels)
}

#[derive(Default)]
struct Tally {
    calls: [u64; NUMBERS],
    records: [u64; NUMBERS],
    settled: u64,
}

impl Tally {
    /// Writes what is owed over a list of so many bytes, and gives the call's number.
    fn observe(&mut self, camera: &Question, list: &mut [u8], pixels: &[[f64; 2]]) -> u8 {
        let number = camera.camera_number().unwrap_or(if list.len() % RECORD == 0 { 0 } else { 7 });
        self.calls[number as usize] += 1;
        if number == 0 {
            for (record, pixel) in list.chunks_exact_mut(RECORD).zip(pixels) {
                let (found, number) = observed(camera, *pixel);
                record[16..34].copy_from_slice(&found);
                self.records[number as usize] += 1;
                self.settled += found[16] as u64;
            }
        }
        number
    }
}

/// A camera as somebody has it, a wild one, or one that is damaged.
fn camera(r: &mut Random) -> Question {
    let mut camera = damaged_camera(r);
    if r.one_in(3) && camera.camera_number().is_none() {
        camera.params = wild_place(r, camera.model as usize).params;
    }
    camera
}

impl Oracle {
    pub fn lists(&mut self, lists: u64) {
        let mut tally = Tally::default();
        for _ in 0..lists {
            let r = &mut self.random;
            let camera = camera(r);
            let (mut ours, pixels) = list(r, camera.model as usize % NO_MODEL);
            let mut owed = ours.clone();
            let whole = RECORD * pixels.len();
            let length = if r.one_in(8) { whole.saturating_sub(r.below(RECORD)) + r.below(STRIP) } else { whole };
            let number = tally.observe(&camera, owed.lend_of_length(length), &pixels);
            let params = handed(&camera.params);
            let given = lens::observe(camera.model, &params[..camera.params_length], ours.lend_of_length(length));
            if given != number || ours != owed {
                let (asked, at) = (input(&camera), ours.differs_at(&owed));
                self.differs(format!("list of {} bytes, {}: gave {}, owed {}, byte {:?}", length, asked, given, number, at));
            }
        }
        let Tally { calls, records, settled } = tally;
        let (refused, answered) = (listed(&calls), records[0]);
        println!(
            "lists: {}, refused {}; records answered {}, settled {}, refused {}",
            lists,
            refused,
            answered,
            settled,
            listed(&records)
        );
        self.met("lists", &calls, &[0, 1, 3, 4, 5, 7]);
        self.met("records of lists", &records, &[0, 4, 10, 11]);
    }
}
