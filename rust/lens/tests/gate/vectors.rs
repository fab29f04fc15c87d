//! The gate's files, as the tests read them: crates/NAME/stdin has the calls, a line each, and crates/NAME/stdout what
//! is owed for them. NAME's src/main.rt tells the form of both.
use lens::{Camera, Model, Observation, Pixel, Refusal};
use std::path::{Path, PathBuf};
use std::str::Lines;

/// The repository.
pub fn repository() -> PathBuf {
    Path::new(env!("CARGO_MANIFEST_DIR")).join("../..")
}

/// A file of the repository.
pub fn text_of(path: &str) -> String {
    let path = repository().join(path);
    std::fs::read_to_string(&path).unwrap_or_else(|e| panic!("{}: {e}", path.display()))
}

/// A field: 16 lower-case hexadecimal digits.
pub fn word(field: &str) -> Option<u64> {
    let digits = field.bytes().all(|b| b.is_ascii_digit() || (b'a'..=b'f').contains(&b));
    if field.len() == 16 && digits {
        u64::from_str_radix(field, 16).ok()
    } else {
        None
    }
}

/// The fields of a line; `None` if it isn't of the form.
pub fn words(line: &str) -> Option<Vec<u64>> {
    line.split('\t').map(word).collect()
}

/// What is owed, line by line.
pub struct Owed<'a>(Lines<'a>);

impl<'a> Owed<'a> {
    pub fn of(text: &'a str) -> Owed<'a> {
        Owed(text.lines())
    }

    pub fn next(&mut self) -> &'a str {
        self.0.next().expect("nothing more is owed")
    }

    pub fn peek(&self) -> Option<&'a str> {
        self.0.clone().next()
    }
}

/// A refusal's number. One that the header doesn't list is no answer.
pub fn number_of(refusal: Refusal) -> u8 {
    assert!(Refusal::ALL.contains(&refusal), "{refusal:?}");
    refusal.number()
}

pub fn bits(numbers: &[f64]) -> Vec<u64> {
    numbers.iter().map(|x| x.to_bits()).collect()
}

/// The f64 whose bytes stand at a place.
pub fn double(bytes: &[u8], at: usize) -> f64 {
    f64::from_le_bytes(bytes[at..at + 8].try_into().unwrap())
}

/// The camera that has these bytes for parameters; `None` if there is no such model, or it has not as many.
pub fn camera_of(model: u64, params: &[u8]) -> Option<Camera> {
    let model = Model::ALL.iter().find(|m| u64::from(m.number()) == model)?;
    let numbers: Vec<f64> = (0..params.len() / 8).map(|i| double(params, 8 * i)).collect();
    Camera::from_params(*model, &numbers).ok().filter(|_| params.len() % 8 == 0)
}

/// The bytes of an observation.
pub const RECORD: usize = 40;

/// A list over bytes: records are made of its pixels, observed, and compared with the bytes owed, or the number.
pub fn observe(camera: &Camera, list: &[u8], owed: Result<Vec<u8>, u8>) {
    let pixels = list.chunks_exact(RECORD).map(|bytes| Pixel::new(double(bytes, 0), double(bytes, 8)));
    let mut list: Vec<Observation> = pixels.map(Observation::new).collect();
    let answer = camera.observe(&mut list);
    assert_eq!(answer.err().map(number_of), owed.as_ref().err().copied());
    match owed {
        Err(_) => assert!(list.iter().all(|seen| seen.answer().is_none())),
        Ok(owed) => {
            assert_eq!(owed.len(), RECORD * list.len());
            list.iter().zip(owed.chunks_exact(RECORD)).for_each(compare_record);
        }
    }
}

fn compare_record((seen, owed): (&Observation, &[u8])) {
    let owed_bits = |at| [double(owed, at).to_bits(), double(owed, at + 8).to_bits()];
    let (settled, number) = (owed[32], owed[33]);
    assert_eq!(bits(&<[f64; 2]>::from(seen.pixel())), owed_bits(0));
    match seen.answer().expect("observed") {
        Ok(found) => {
            assert_eq!(bits(&<[f64; 2]>::from(found.point)), owed_bits(16));
            assert_eq!((u8::from(found.settled), 0), (settled, number));
        }
        Err(refusal) => assert_eq!((number_of(refusal), [0, 0], 0), (number, owed_bits(16), settled)),
    }
}
