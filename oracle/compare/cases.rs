// Random cameras and points, valid and wild.
use rust_text::Params;

/// The largest angle that has a tangent (docs/RULES.md 6.5).
pub const LIMIT: f64 = 99.0 / 64.0;

/// splitmix64.
pub struct Random(pub u64);

impl Random {
    pub fn bits(&mut self) -> u64 {
        self.0 = self.0.wrapping_add(0x9e3779b97f4a7c15);
        let z = (self.0 ^ self.0 >> 30).wrapping_mul(0xbf58476d1ce4e5b9);
        let z = (z ^ z >> 27).wrapping_mul(0x94d049bb133111eb);
        z ^ z >> 31
    }
    pub fn below(&mut self, n: usize) -> usize {
        (self.bits() % n as u64) as usize
    }
    pub fn one_in(&mut self, n: usize) -> bool {
        self.below(n) == 0
    }
    pub fn between(&mut self, low: f64, high: f64) -> f64 {
        low + (high - low) * ((self.bits() >> 11) as f64 / (1u64 << 53) as f64)
    }
    pub fn pick(&mut self, from: &[f64]) -> f64 {
        from[self.below(from.len())]
    }
    /// One of the numbers, or up to three steps beside it.
    fn near(&mut self, from: &[f64]) -> f64 {
        let x = self.pick(from);
        let sign = if self.one_in(2) { 1.0 } else { -1.0 };
        sign * f64::from_bits(x.to_bits() + self.bits() % 7 - 3)
    }
}

/// Thresholds of the rules, and of root, arctangent and tangent.
const THRESHOLDS: [f64; 12] =
    [1e-6, 1e-3, 2e-3, 0.1, 0.2, 0.4, 0.5, 1.0, LIMIT, 2.0, std::f64::consts::FRAC_PI_2, 1.3407807929942596e154];

/// Any finite number, the awkward ones often.
pub fn wild(r: &mut Random) -> f64 {
    match r.below(10) {
        0 => r.pick(&[0.0, -0.0, 1.0, -1.0, 5e-324, -5e-324, f64::MIN_POSITIVE, f64::MAX, f64::MIN]),
        1 | 2 => loop {
            let x = f64::from_bits(r.bits());
            if x.is_finite() {
                break x;
            }
        },
        3 | 4 => {
            let field = 1023 - 40 + r.below(80) as u64;
            f64::from_bits(r.bits() & (1 << 63 | (1 << 52) - 1) | field << 52)
        }
        5 => f64::from_bits(r.bits() & (1 << 63 | (1 << 52) - 1)),
        6 => r.below(9) as f64 - 4.0,
        7 => r.near(&THRESHOLDS),
        _ => r.between(-3.0, 3.0),
    }
}

/// A camera, a point on its plane and a pixel.
#[derive(Clone, Copy)]
pub struct Place {
    pub params: Params,
    pub point: [f64; 2],
    pub pixel: [f64; 2],
}

/// A lens that somebody might have, of an image of that size.
pub fn valid_camera(r: &mut Random, model: usize, width: f64, height: f64) -> Params {
    let mut p = Params::default();
    p[0] = width * r.between(0.3, 2.5);
    p[1] = p[0] * r.between(0.9, 1.1);
    p[2] = width * r.between(0.4, 0.6);
    p[3] = height * r.between(0.4, 0.6);
    let spreads: &[f64] = match model {
        0 => &[],
        1 => &[0.0, 0.0],
        2 => &[0.2, 0.05, 0.02, 0.005],
        _ if r.one_in(2) => &[0.3, 0.1, 0.002, 0.002, 0.05, 0.0, 0.0, 0.0],
        _ => &[0.8, 0.1, 0.001, 0.001, 0.01, 1.1, 0.2, 0.02],
    };
    for (place, s) in p[4..].iter_mut().zip(spreads) {
        *place = r.between(-s, *s);
    }
    if model == 1 {
        p[4] = r.between(0.0, 1.0);
        p[5] = r.between(0.3, 2.0);
    }
    if model == 4 {
        for (place, s) in p[12..].iter_mut().zip([0.02, 0.005, 0.02, 0.005]) {
            *place = r.between(-s, s);
        }
    }
    p
}

pub fn valid(r: &mut Random, model: usize) -> Place {
    let (width, height) = [(640.0, 480.0), (1280.0, 720.0), (2048.0, 2048.0), (64.0, 64.0)][r.below(4)];
    let (radius, turn) = (r.between(0.0, 2.0), r.between(0.0, std::f64::consts::TAU));
    Place {
        params: valid_camera(r, model, width, height),
        point: [radius * turn.cos(), radius * turn.sin()],
        pixel: [r.between(-0.5, width - 0.5), r.between(-0.5, height - 0.5)],
    }
}

/// Points where a branch of the rules turns: kb's radius at the root of EPS, its angle at the tangent's limit, zero and one axis.
fn edge(r: &mut Random, params: &Params) -> [f64; 2] {
    let size = match r.below(4) {
        0 => r.near(&[1e-3]),
        1 => {
            // the distorted angle of about the limit
            let t = if r.one_in(2) { r.near(&[LIMIT]) } else { LIMIT + r.between(-1e-9, 1e-9) };
            let t2 = t * t;
            t * (1.0 + t2 * (params[4] + t2 * (params[5] + t2 * (params[6] + t2 * params[7]))))
        }
        2 => r.near(&THRESHOLDS),
        _ => r.pick(&[0.0, -0.0]),
    };
    let turn = r.between(0.0, std::f64::consts::TAU);
    match r.below(3) {
        0 => [size, r.pick(&[0.0, -0.0])],
        1 => [r.pick(&[0.0, -0.0]), size],
        _ => [size * turn.cos(), size * turn.sin()],
    }
}

/// A camera of bc or bc12 and a pixel whose first Newton step is as long as EPS, to within some units in the last place: the one place
/// where the way a norm is worked out shows. The pixel is close to the axis, so that the step keeps its low bits.
fn settling(r: &mut Random) -> Place {
    let (radius, turn) = (r.between(4e-6, 3e-5), r.between(0.0, std::f64::consts::TAU));
    let at = [radius * turn.cos(), radius * turn.sin()];
    let mut params = Params::default();
    params[..2].copy_from_slice(&[1.0, 1.0]);
    params[4] = 1e-6 / (radius * radius * radius - 3e-6 * radius * radius);
    Place { params, point: at, pixel: at }
}

pub fn wild_place(r: &mut Random, model: usize) -> Place {
    if model >= 3 && r.one_in(8) {
        return settling(r);
    }
    let mut place = valid(r, model);
    if r.one_in(2) {
        place.params[..4].copy_from_slice(&[1.0, 1.0, 0.0, 0.0]);
    }
    let one_in = [1, 2, 4, 12][r.below(4)];
    for x in &mut place.params {
        if r.one_in(one_in) {
            *x = wild(r);
        }
    }
    if r.one_in(3) {
        place.point = edge(r, &place.params);
        let e = edge(r, &place.params);
        place.pixel = [e[0] * place.params[0] + place.params[2], e[1] * place.params[1] + place.params[3]];
    } else if r.one_in(2) {
        place.point = [wild(r), wild(r)];
        place.pixel = [wild(r), wild(r)];
    }
    place.pixel = place.pixel.map(|x| if x.is_finite() { x } else { 0.5 });
    place.point = place.point.map(|x| if x.is_finite() { x } else { 0.5 });
    place
}
