// A sample of questions with what is owed on each, for the gate to replay without Rust: as many of every model,
// operation and number as the quota, or as turn up.
use crate::cases::{valid, wild, wild_place, Random};
use crate::damage::damage;
use crate::judge::{Given, Question};
use crate::lens;
use rust_text::{Params, NO_MODEL};
use std::collections::HashMap;
use std::fmt::Write;

/// Answered and refused lines of one model and operation, for each number.
const ANSWERED: usize = 100;
const REFUSED: usize = 12;

fn draw(r: &mut Random, model: usize, operation: usize) -> Question {
    let place = if r.one_in(2) { valid(r, model) } else { wild_place(r, model) };
    let at = if operation == 1 { place.pixel } else { place.point };
    let mut q = Question::right(model, operation, place.params, at);
    if r.one_in(3) {
        damage(r, &mut q);
    }
    q
}

/// A line of fields, 16 hexadecimal digits each: model, operation, bytes of parameters handed over, bytes lent, as many
/// parameters as a model has at most, two coordinates.
fn question_line(q: &Question) -> String {
    let counts = [q.model as u64, q.operation as u64, q.params_length as u64, q.answer_length as u64];
    let floats = q.params.iter().chain(&q.at).map(|x| x.to_bits());
    let fields: Vec<String> = counts.into_iter().chain(floats).map(|bits| format!("{:016x}", bits)).collect();
    fields.join("\t") + "\n"
}

/// The number, and after a 0 the answer's bytes, eight at a time as a number whose least byte comes first.
fn answer_line(q: &Question, owed: &Given) -> String {
    let mut line = owed.number.to_string();
    if owed.number == 0 {
        for i in 0..lens::LENGTHS[q.operation] / 8 {
            write!(line, "\t{:016x}", owed.float(i).to_bits()).unwrap();
        }
    }
    line + "\n"
}

/// The questions and the answers.
pub fn sample(seed: u64) -> (String, String) {
    let mut r = Random(seed);
    let mut have: HashMap<(usize, usize, u8), usize> = HashMap::new();
    let (mut questions, mut answers) = (String::new(), String::new());
    let mut lines = 0;
    for turn in 0..500_000 {
        let (model, operation) = (turn % NO_MODEL, turn / NO_MODEL % 4);
        let q = draw(&mut r, model, operation);
        if q.without_rust() {
            continue;
        }
        let owed = q.owed();
        let count = have.entry((model, operation, owed.number)).or_insert(0);
        *count += 1;
        if *count <= if owed.number == 0 { ANSWERED } else { REFUSED } {
            questions += &question_line(&q);
            answers += &answer_line(&q, &owed);
            lines += 1;
        }
    }
    // Roots: operation 4, of which the first coordinate is the number.
    for _ in 0..ANSWERED {
        let mut q = Question::right(0, 0, Params::default(), [wild(&mut r), 0.0]);
        q.operation = 4;
        questions += &question_line(&q);
        let root = q.at[0].sqrt();
        // Below zero, said in bits: asked whether the root is NaN, or the number below zero, rustc 1.95 -O gives the NaN that
        // the root has and not the one that stands here.
        let bits = if q.at[0].to_bits() > 1 << 63 { 0x7ff8 << 48 } else { root.to_bits() };
        writeln!(answers, "0\t{:016x}", bits).unwrap();
        lines += 1;
    }
    writeln!(answers, "lines\t{}", lines).unwrap();
    (questions, answers)
}
