//! The gate's calls of a camera (crates/test_camera_calls), as far as they can be said in Rust: lengths are always
//! right here and a model is one of the models, so calls with others are left out. Answers are compared bit by bit.
use crate::vectors::{bits, camera_of, number_of, observe, text_of, word, words, Owed, RECORD};
use lens::{Camera, Model, Pixel, Point, Refusal};
use std::collections::BTreeMap;

const ANSWER_BYTES: [u64; 4] = [16, 24, 264, 264];

/// A line of the gate's.
#[derive(Clone)]
struct Call {
    model: u64,
    done: u64,
    handed: u64,
    lent: u64,
    params: Vec<u64>,
    x: u64,
    y: u64,
}

impl Call {
    fn of(line: &str) -> Option<Call> {
        let mut fields = words(line)?;
        let (y, x) = (fields.pop()?, fields.pop()?);
        match *fields.as_slice() {
            [model, done, handed, lent, ref params @ ..] => {
                Some(Call { model, done, handed, lent, params: params.to_vec(), x, y })
            }
            _ => None,
        }
    }

    fn camera(&self) -> Option<Camera> {
        let bytes: Vec<u8> = self.params.iter().copied().flat_map(u64::to_le_bytes).collect();
        camera_of(self.model, bytes.get(..self.handed as usize)?)
    }

    fn xy(&self) -> [f64; 2] {
        [f64::from_bits(self.x), f64::from_bits(self.y)]
    }
}

/// An answer as the gate writes it: the number, and the words of the answer.
fn said(answer: Result<Vec<u64>, Refusal>) -> String {
    match answer {
        Ok(words) => words.iter().fold("0".to_string(), |line, word| format!("{line}\t{word:016x}")),
        Err(refusal) => number_of(refusal).to_string(),
    }
}

/// The answer of a function of one number. Which NaN it is isn't said; the gate writes this one.
fn number(x: f64) -> Vec<u64> {
    vec![if x.is_nan() { 0x7ff8000000000000 } else { x.to_bits() }]
}

/// Two rows as the record of 32 numbers and the count of columns.
fn record([u, v]: [&[f64]; 2]) -> Vec<u64> {
    assert_eq!(u.len(), v.len());
    let mut words = bits(&[u, v].concat());
    words.resize(32, 0);
    words.push(u.len() as u64);
    words
}

/// One of the four operations.
fn operation(camera: &Camera, done: u64, xy: [f64; 2]) -> Result<Vec<u64>, Refusal> {
    let (point, pixel) = (Point::from(xy), Pixel::from(xy));
    match done {
        0 => camera.distort(point).map(|pixel| bits(&[pixel.u, pixel.v])),
        1 => camera.undistort(pixel).map(|found| {
            let mut words = bits(&[found.point.x, found.point.y]);
            words.push(u64::from(found.updates) | u64::from(found.settled) << 32);
            words
        }),
        2 => camera.dx_distort_x(point).map(|rows| record([&rows[0], &rows[1]])),
        _ => camera.dx_distort_params(point).map(|slopes| {
            assert_eq!(slopes.columns(), camera.params().len());
            record(slopes.rows())
        }),
    }
}

/// The bytes of the words that are owed for a list, or the number.
fn list_owed(owes: &str) -> Result<Vec<u8>, u8> {
    let (number, words) = owes.split_once('\t').unwrap_or((owes, ""));
    match number.parse().unwrap() {
        0 => Ok(words.split('\t').filter_map(word).flat_map(u64::to_le_bytes).collect()),
        number => Err(number),
    }
}

/// Puts words into bytes, as far as they fit.
fn put(bytes: &mut [u8], at: usize, words: &[u64]) {
    for (i, word) in words.iter().enumerate() {
        if let Some(to) = bytes.get_mut(at + 8 * i..at + 8 * i + 8) {
            to.copy_from_slice(&word.to_le_bytes());
        }
    }
}

/// What Rust answers to a call; `None` if it can't be said here. A list is compared with what is owed, and then
/// answers that.
fn answered(call: &Call, lent: &[u8], owes: &str) -> Option<String> {
    let x = call.xy()[0];
    Some(match call.done {
        0..=3 if call.lent == ANSWER_BYTES[call.done as usize] => {
            said(operation(&call.camera()?, call.done, call.xy()))
        }
        4 => said(Ok(number(lens::root(x)))),
        5 if call.lent == 8 => said(lens::tangent(x).map(|t| bits(&[t]))),
        6 if call.lent as usize % RECORD == 0 => {
            let list = lent.get(call.x as usize..)?.get(..call.lent as usize)?;
            observe(&call.camera()?, list, list_owed(owes));
            owes.to_string()
        }
        8 => said(Ok(number(lens::arctangent(x)))),
        _ => return None,
    })
}

/// The calls of a row, each with the line that is owed for it: the lines of a row are those with a 0 and those with
/// another number than the call before.
fn row(call: &Call, owed: &mut Owed) -> Vec<(Call, String)> {
    let mut calls = Vec::new();
    let mut last = String::new();
    for n in 0..=300 {
        if let Some(line) = owed.peek().and_then(|line| line.strip_prefix(&format!("{n}\t"))) {
            last = line.to_string();
            owed.next();
        }
        let mut one = call.clone();
        one.done %= 16;
        match call.done / 16 {
            1 => one.lent = n,
            2 => one.handed = n,
            3 => (one.lent, one.handed) = (n, n),
            _ => one.model = n % 256,
        }
        calls.push((one, last.clone()));
    }
    calls
}

#[test]
fn answers_are_those_of_the_gate() {
    let (asked, answers) = (text_of("crates/test_camera_calls/stdin"), text_of("crates/test_camera_calls/stdout"));
    let mut owed = Owed::of(&answers);
    let mut lent = [0xa5u8; 4000];
    let mut compared: BTreeMap<(u64, u64), usize> = BTreeMap::new();
    let mut left_out = 0;
    for line in asked.lines() {
        let call = Call::of(line);
        let calls = match call {
            Some(call) if call.done == 7 && call.x <= 4000 => {
                put(&mut lent, call.x as usize, &call.params);
                continue;
            }
            Some(call) if (16..80).contains(&call.done) && call.done % 16 < 7 && call.done % 16 != 4 => {
                row(&call, &mut owed)
            }
            Some(call) => vec![(call, owed.next().to_string())],
            None => {
                owed.next(); // a heading, or what is no call
                continue;
            }
        };
        for (call, owes) in calls {
            // `bad` is a line that is cut off, or asks for more bytes than the gate's program has
            match answered(&call, &lent, &owes) {
                Some(answer) if owes != "bad" => {
                    assert_eq!(answer, owes, "{line}");
                    let model = if call.done < 4 || call.done == 6 { call.model } else { 0 };
                    *compared.entry((call.done, model)).or_default() += 1;
                }
                _ => left_out += 1,
            }
        }
    }
    assert!(owed.next().starts_with("lines\t") && owed.peek().is_none());
    let calls: usize = compared.values().sum();
    println!("{calls} calls compared, {left_out} left out; (what is done, model): {compared:?}");
    for model in Model::ALL {
        for done in 0..4 {
            assert!(compared[&(done, model.number().into())] >= 100, "{model} {done}");
        }
        assert!(compared[&(6, model.number().into())] >= 10, "{model}");
    }
    assert!([4, 5, 8].iter().all(|done| compared[&(*done, 0)] >= 5));
}
