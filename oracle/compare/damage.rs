// Damaged questions.
use crate::cases::{valid, Random};
use crate::judge::{Question, MOST};
use rust_text::{COUNTS, NO_MODEL};

/// A NaN of any sign and payload, or an infinity.
pub fn unfinished(r: &mut Random) -> f64 {
    let low = if r.one_in(2) { 0 } else { r.bits() >> 12 };
    f64::from_bits(r.bits() & 1 << 63 | 0x7ff << 52 | low)
}

/// One to three things wrong with a question.
pub fn damage(r: &mut Random, q: &mut Question) {
    for _ in 0..1 + r.below(3) {
        match r.below(8) {
            0 => q.at[r.below(2)] = unfinished(r),
            1 => q.params[r.below(COUNTS[q.model as usize % NO_MODEL])] = unfinished(r),
            2 | 3 => q.params[r.below(2)] = r.pick(&[0.0, -0.0]),
            4 => q.params_length = r.below(MOST),
            5 => q.answer_length = r.below(MOST),
            6 => q.params_length = 8 * COUNTS[r.below(NO_MODEL)],
            _ => q.model = r.bits() as u8,
        }
    }
}

/// A camera, damaged or not.
pub fn damaged_camera(r: &mut Random) -> Question {
    let model = r.below(NO_MODEL);
    let mut q = Question::right(model, 0, valid(r, model).params, [0.0; 2]);
    if r.one_in(2) {
        damage(r, &mut q);
    }
    q
}
