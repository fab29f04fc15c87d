// What the library owes on a question: document 01's refusals in their order, and else the Rust's answer, as bytes.
use crate::lens;
use rust_text::{ask, Angles, Answer, Params, COUNTS, NO_MODEL};
use std::cell::Cell;

/// What the Rust does without saying so, told by the stand-in.
#[derive(Clone, Copy)]
pub struct Trace {
    pub updates: u32,
    pub flag: bool,
    /// The tangent was refused its angle.
    pub steep: bool,
    /// The angle that the tangent was last asked for; NaN if it wasn't.
    pub theta: f64,
    /// How many matrices were inverted, and the largest size that 1 over a determinant had: of the first, of later ones.
    pub inverted: u32,
    pub inverse: [f64; 2],
    /// What was divided by last: in eucm's undistort the Rust's k, the z of the ray.
    pub divisor: f64,
}

impl Trace {
    /// The flag: the last test passed, and kb's last angle, where there is one, is above 0 (docs/RULES.md 11).
    pub fn settled(&self) -> bool {
        self.flag && (self.theta.is_nan() || self.theta > 0.0)
    }
}

const DIRECT: Trace = Trace { updates: 0, flag: true, steep: false, theta: f64::NAN, inverted: 0, inverse: [0.0; 2], divisor: f64::NAN };

thread_local! {
    static TRACE: Cell<Trace> = const { Cell::new(DIRECT) };
}

fn change(f: impl Fn(Trace) -> Trace) {
    TRACE.with(|t| t.set(f(t.get())))
}

/// What happened since this was last called.
pub fn trace() -> Trace {
    TRACE.with(|t| t.replace(DIRECT))
}

/// Our arctangent and tangent put into the Rust, and its updates and tests noted.
#[derive(Clone, Copy, Debug)]
pub struct PutIn;

impl Angles for PutIn {
    fn arctangent(x: f64) -> f64 {
        lens::arctangent(x)
    }
    fn tangent(theta: f64) -> f64 {
        change(|t| Trace { theta, ..t });
        lens::tangent(theta).unwrap_or_else(|_| {
            change(|t| Trace { steep: true, ..t });
            f64::NAN
        })
    }
    fn updated() {
        change(|t| Trace { updates: t.updates + 1, ..t })
    }
    fn judged(truth: bool) {
        change(|t| Trace { flag: truth, ..t })
    }
    fn selected(first: bool) {
        if first {
            change(|_| DIRECT)
        }
    }
    fn divided(by: f64) {
        change(|t| Trace { divisor: by, ..t })
    }
    fn scaled(factor: f64) {
        change(|t| {
            let mut inverse = t.inverse;
            let place = &mut inverse[(t.inverted > 0) as usize];
            *place = place.max(factor.abs());
            Trace { inverted: t.inverted + 1, inverse, ..t }
        })
    }
}

/// What is wrong with a camera that is handed over as bytes, or with the coordinates that go with it; the lowest number.
pub fn camera_refused(model: u8, params: &[f64], params_length: usize, coordinates: &[f64]) -> Option<u8> {
    if model as usize >= NO_MODEL {
        return Some(1);
    }
    let count = COUNTS[model as usize];
    if params_length != 8 * count {
        return Some(3);
    }
    if params[..count].iter().chain(coordinates).any(|x| !x.is_finite()) {
        return Some(4);
    }
    if params[0] == 0.0 || params[1] == 0.0 {
        return Some(5);
    }
    None
}

/// Numbers as a caller hands them over, and zeros up to MOST bytes.
pub fn handed(numbers: &[f64]) -> [u8; MOST] {
    let mut bytes = [0; MOST];
    for (place, x) in bytes.chunks_exact_mut(8).zip(numbers) {
        place.copy_from_slice(&x.to_le_bytes());
    }
    bytes
}

/// One call. The first `params_length` bytes of `params` are handed over, and `answer_length` bytes are lent.
#[derive(Clone, Copy)]
pub struct Question {
    pub model: u8,
    pub operation: usize,
    pub params: Params,
    pub params_length: usize,
    pub at: [f64; 2],
    pub answer_length: usize,
}

/// At most this many bytes are handed over or lent.
pub const MOST: usize = 304;

impl Question {
    /// A caller who keeps to the rules.
    pub fn right(model: usize, operation: usize, params: Params, at: [f64; 2]) -> Question {
        let params_length = 8 * COUNTS[model];
        Question { model: model as u8, operation, params, params_length, at, answer_length: lens::LENGTHS[operation] }
    }

    pub fn ask_ours(&self) -> Given {
        let mut given = Given::untouched(0);
        let lent = &mut given.bytes[..self.answer_length];
        given.number = lens::call(self.operation, self.model, &handed(&self.params)[..self.params_length], self.at, lent);
        given
    }

    /// What is wrong with the camera alone.
    pub fn camera_number(&self) -> Option<u8> {
        camera_refused(self.model, &self.params, self.params_length, &[])
    }

    /// The refusals that need no answer of the Rust, the lowest first.
    fn refused_at_once(&self) -> Option<u8> {
        let wrong_length = self.answer_length != lens::LENGTHS[self.operation];
        camera_refused(self.model, &self.params, self.params_length, &self.at).or(if wrong_length { Some(7) } else { None })
    }

    /// Whether the Rust has no answer to hold ours to: of bc its dx_distort_params is a todo!(), which would stop us too. What
    /// refuses such a call before the model is asked can be compared, and is.
    pub fn without_rust(&self) -> bool {
        self.operation == 3 && self.model == 3 && self.refused_at_once().is_none()
    }

    pub fn owed(&self) -> Given {
        self.traced().0
    }

    /// What is owed, and what the Rust did on the way.
    pub fn traced(&self) -> (Given, Trace) {
        if let Some(number) = self.refused_at_once() {
            return (Given::untouched(number), DIRECT);
        }
        trace();
        let answer = ask::<PutIn>(self.model as usize, self.operation, &self.params, self.at);
        let trace = trace();
        (self.told(&answer, trace), trace)
    }

    /// The Rust's answer as bytes, or the number that it comes to.
    fn told(&self, answer: &Answer, trace: Trace) -> Given {
        if trace.steep {
            return Given::untouched(10);
        }
        if self.model == 1 && self.operation == 1 && trace.divisor <= 0.0 {
            return Given::untouched(16);
        }
        if answer.used().iter().any(|x| !x.is_finite()) {
            return Given::untouched(11);
        }
        let mut given = Given::untouched(0);
        for (place, x) in given.bytes[..lens::LENGTHS[self.operation]].chunks_exact_mut(8).zip(answer.numbers) {
            place.copy_from_slice(&x.to_le_bytes());
        }
        match self.operation {
            0 => {}
            1 => {
                given.bytes[16..20].copy_from_slice(&trace.updates.to_le_bytes());
                given.bytes[20..24].copy_from_slice(&[trace.settled() as u8, 0, 0, 0]);
            }
            _ => given.bytes[256..264].copy_from_slice(&(answer.columns as u64).to_le_bytes()),
        }
        given
    }
}

/// A refusal's number, or 0, and all the bytes that could have been written.
#[derive(Clone, Copy, PartialEq)]
pub struct Given {
    pub number: u8,
    pub bytes: [u8; MOST],
}

impl Given {
    fn untouched(number: u8) -> Given {
        Given { number, bytes: [0xa5; MOST] }
    }

    /// Whether two answers are the same bits, the sign of a zero aside.
    pub fn alike(&self, other: &Given) -> bool {
        let same = |i: usize| self.float(i).to_bits() == other.float(i).to_bits() || self.float(i) == 0.0 && other.float(i) == 0.0;
        self.number == other.number && (0..MOST / 8).all(same)
    }

    /// Number i of the answer.
    pub fn float(&self, i: usize) -> f64 {
        f64::from_le_bytes(std::array::from_fn(|k| self.bytes[8 * i + k]))
    }
}
