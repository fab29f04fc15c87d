// bc12, of which the Rust has no text: docs/RULES.md 10.8 over 10.2 and 10.4 to 10.7, in plain f64, each operation in the order
// that stands there. Nothing of bc's text is called, so that a prism of zeros can be held to it.
use crate::ask::{Answer, Params};
use crate::linalg::EPS_F64;
use crate::Angles;

/// The most updates that a search makes.
const UPDATES: usize = 50;

/// The powers of a radius, what tangential terms multiply, numerator, and 1 over the denominator: 10.2.
struct Radial {
    q: f64,
    q2: f64,
    q3: f64,
    b0: f64,
    b1: f64,
    b2: f64,
    n: f64,
    i: f64,
}

fn radial(params: &Params, [x, y]: [f64; 2]) -> Radial {
    let [_, _, _, _, k1, k2, _, _, k3, k4, k5, k6, ..] = *params;
    let q = x * x + y * y;
    let q2 = q * q;
    let q3 = q2 * q;
    let (b0, b1, b2) = (2.0 * x * y, q + 2.0 * x * x, q + 2.0 * y * y);
    let n = 1.0 + k1 * q + k2 * q2 + k3 * q3;
    let i = 1.0 / (1.0 + k4 * q + k5 * q2 + k6 * q3);
    Radial { q, q2, q3, b0, b1, b2, n, i }
}

/// Where the lens sends a point, before focal lengths and centre.
fn sent(params: &Params, [x, y]: [f64; 2]) -> [f64; 2] {
    let [_, _, _, _, _, _, p1, p2, _, _, _, _, s1, s2, s3, s4] = *params;
    let Radial { q, q2, b0, b1, b2, n, i, .. } = radial(params, [x, y]);
    let (bent_x, bent_y) = (x * n * i + p1 * b0 + p2 * b1, y * n * i + p1 * b2 + p2 * b0);
    [bent_x + s1 * q + s2 * q2, bent_y + s3 * q + s4 * q2]
}

/// 10.4: 1 over the squared denominator, then Ux, Uy, Vx and Vy.
fn slopes(params: &Params, [x, y]: [f64; 2]) -> (f64, [f64; 4]) {
    let [_, _, _, _, k1, k2, p1, p2, k3, k4, k5, k6, ..] = *params;
    let q = x * x + y * y;
    let q2 = q * q;
    let q3 = q2 * q;
    let s = q * k4 + q2 * k5 + q3 * k6 + 1.0;
    let n = q * k1 + q2 * k2 + q3 * k3 + 1.0;
    let ss = s * s;
    let d = 2.0 * (2.0 * q * k5 + 3.0 * q2 * k6 + k4) * n;
    let e = 2.0 * (2.0 * q) * k2 + 2.0 * (3.0 * q2) * k3 + 2.0 * k1;
    let m = -d * (x * y) + e * (x * y) * s;
    let ux = -(x * x) * d + s * ((x * x) * e + n) + ss * (y * (2.0 * p1) + 6.0 * (x * p2));
    let uy = m + ss * (x * (2.0 * p1) + 2.0 * (y * p2));
    let vx = m + ss * (2.0 * x * p1 + 2.0 * (y * p2));
    let vy = -(y * y) * d + s * ((y * y) * e + n) + ss * (6.0 * y * p1 + 2.0 * (x * p2));
    (1.0 / ss, [ux, uy, vx, vy])
}

/// What the prism adds to the slopes of u, and to those of v, for each x or y.
fn prism_slopes(params: &Params, [x, y]: [f64; 2]) -> [f64; 2] {
    let [.., s1, s2, s3, s4] = *params;
    let q = x * x + y * y;
    [2.0 * (s1 + 2.0 * s2 * q), 2.0 * (s3 + 2.0 * s4 * q)]
}

fn norm([a, b]: [f64; 2]) -> f64 {
    (a * a + b * b).sqrt()
}

/// 10.7 with the prism.
fn undistort<A: Angles>(params: &Params, pixel: [f64; 2]) -> [f64; 2] {
    let [fx, fy, cx, cy, ..] = *params;
    let [x0, y0] = [(pixel[0] - cx) / fx, (pixel[1] - cy) / fy];
    let off = |at: [f64; 2]| {
        let [x, y] = sent(params, at);
        [x - x0, y - y0]
    };
    let mut at = [x0, y0];
    for _ in 0..UPDATES {
        let [x, y] = at;
        let [f, g] = off(at);
        let (over, [ux, uy, vx, vy]) = slopes(params, at);
        let [su, sv] = prism_slopes(params, at);
        let (a, b) = (over * ux + su * x, over * uy + su * y);
        let (c, d) = (over * vx + sv * x, over * vy + sv * y);
        let z = 1.0 / (a * d - b * c);
        A::scaled(z);
        let step = [(d * z) * f + (-b * z) * g, (-c * z) * f + (a * z) * g];
        if norm(step) <= EPS_F64 {
            break;
        }
        at = [x - step[0], y - step[1]];
        A::updated();
    }
    A::judged(norm(off(at)) <= EPS_F64);
    at
}

fn by_point(params: &Params, at: [f64; 2]) -> [[f64; 2]; 2] {
    let [fx, fy, ..] = *params;
    let [x, y] = at;
    let (over, [ux, uy, vx, vy]) = slopes(params, at);
    let [su, sv] = prism_slopes(params, at);
    [
        [over * fx * ux + su * x * fx, over * fx * uy + su * y * fx],
        [over * fy * vx + sv * x * fy, over * fy * vy + sv * y * fy],
    ]
}

fn by_params(params: &Params, at: [f64; 2]) -> [[f64; 16]; 2] {
    let [fx, fy, ..] = *params;
    let [x, y] = at;
    let Radial { q, q2, q3, b0, b1, b2, n, i } = radial(params, at);
    let [u, v] = sent(params, at);
    let (ku, kv) = (x * (i * fx), y * (i * fy));
    let (lu, lv) = (-(x * n * i * (i * fx)), -(y * n * i * (i * fy)));
    [
        [u, 0.0, 1.0, 0.0, ku * q, ku * q2, b0 * fx, b1 * fx, ku * q3, lu * q, lu * q2, lu * q3, q * fx, q2 * fx, 0.0, 0.0],
        [0.0, v, 0.0, 1.0, kv * q, kv * q2, b2 * fy, b0 * fy, kv * q3, lv * q, lv * q2, lv * q3, 0.0, 0.0, q * fy, q2 * fy],
    ]
}

fn rows<const C: usize>(rows: [[f64; C]; 2]) -> Answer {
    let mut numbers = [0.0; 32];
    numbers[..2 * C].copy_from_slice(&rows.concat());
    Answer { numbers, columns: C }
}

pub fn ask<A: Angles>(operation: usize, params: &Params, at: [f64; 2]) -> Answer {
    let [fx, fy, cx, cy, ..] = *params;
    match operation {
        0 => {
            let [x, y] = sent(params, at);
            rows([[x * fx + cx], [y * fy + cy]])
        }
        1 => rows(undistort::<A>(params, at).map(|z| [z])),
        2 => rows(by_point(params, at)),
        _ => rows(by_params(params, at)),
    }
}
