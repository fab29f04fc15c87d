// Points aimed at places that random ones seldom meet. Each kind of place is told by what the Rust did there, or by the rules'
// formula, and counted: a kind that is never met is an error of the oracle.
use crate::cases::{valid, valid_camera, wild_place, Place, Random, LIMIT};
use crate::judge::{Question, Trace};
use crate::Oracle;
use rust_text::Params;

const KINDS: [&str; 17] = [
    "eucm k above 0 by at most 1e-9",
    "eucm k below 0 by at most 1e-9, refused 16",
    "eucm k 0, refused 16",
    "bc 1/determinant above 1e9 at the first step",
    "bc 1/determinant above 1e9 at a later step",
    "bc determinant 0",
    "kb last theta below 0, answered",
    "kb last theta below -99/64, refused 10",
    "kb last theta 0",
    "bc k4 k5 k6 all +0",
    "bc k4 k5 k6 all -0",
    "bc k4 k5 k6 zeros of both signs",
    "bc12 1/determinant above 1e9",
    "bc12 determinant 0",
    "bc12 s1 to s4 all +0",
    "bc12 s1 to s4 all -0",
    "bc12 s1 to s4 zeros of both signs",
];

/// The z of an eucm ray, by docs/RULES.md 8.3.
fn ray_z(params: &Params, pixel: [f64; 2]) -> f64 {
    let [fx, fy, cx, cy, alpha, beta, ..] = *params;
    let (mx, my) = ((pixel[0] - cx) / fx, (pixel[1] - cy) / fy);
    let q = mx * mx + my * my;
    let gamma = 1.0 - alpha;
    (1.0 - alpha * alpha * beta * q) / (alpha * (1.0 - (alpha - gamma) * beta * q).sqrt() + gamma)
}

/// Whether a bc12's prism is zeros, of either sign.
fn no_prism(params: &Params) -> bool {
    params[12..].iter().all(|&x| x == 0.0)
}

/// Which kinds an undistorted pixel is of.
fn kinds(q: &Question, number: u8, trace: &Trace) -> [bool; 17] {
    let k = if q.model == 1 { ray_z(&q.params, q.at) } else { f64::NAN };
    let near = |inverse: f64| 1e9 < inverse && inverse.is_finite();
    let theta = trace.theta;
    let (bc, bc12) = (q.model == 3, q.model == 4);
    let zeros = bc && q.params[9..12].iter().all(|&x| x == 0.0);
    let minus = |some: &[f64]| some.iter().filter(|x| x.is_sign_negative()).count();
    let (last, prism) = (minus(&q.params[9..12]), minus(&q.params[12..]));
    let singular = trace.inverse.iter().any(|x| x.is_infinite());
    let flat = bc12 && no_prism(&q.params);
    [
        0.0 < k && k <= 1e-9,
        -1e-9 <= k && k < 0.0 && number == 16,
        k == 0.0 && number == 16,
        bc && near(trace.inverse[0]),
        bc && near(trace.inverse[1]),
        bc && singular,
        theta < 0.0 && number == 0,
        theta < -LIMIT && number == 10,
        theta == 0.0,
        zeros && last == 0,
        zeros && last == 3,
        zeros && (last == 1 || last == 2),
        bc12 && trace.inverse.iter().any(|&inverse| near(inverse)),
        bc12 && singular,
        flat && prism == 0,
        flat && prism == 4,
        flat && (1..4).contains(&prism),
    ]
}

/// A little off 1, or 1: some units in the last place, or some more.
fn about_one(r: &mut Random) -> f64 {
    match r.below(4) {
        0 => 1.0,
        1 => 1.0 + (r.below(17) as f64 - 8.0) * f64::EPSILON,
        2 => 1.0 + r.between(-1e-12, 1e-12),
        _ => 1.0 + r.between(-1e-9, 1e-9),
    }
}

/// The pixel at a radius on the plane before focal lengths and centre, in any direction or on an axis.
fn pixel_at(r: &mut Random, params: &Params, radius: f64) -> [f64; 2] {
    let turn = r.between(0.0, std::f64::consts::TAU);
    let zero = r.pick(&[0.0, -0.0]);
    let [x, y] = match r.below(4) {
        0 => [radius, zero],
        1 => [zero, -radius],
        _ => [radius * turn.cos(), radius * turn.sin()],
    };
    [x * params[0] + params[2], y * params[1] + params[3]]
}

/// Somebody's focal lengths and centre, or such as keep a pixel's low bits: powers of two, or 1 and 0.
fn plain(r: &mut Random, params: &mut Params) {
    let size = (1 << r.below(8)) as f64;
    match r.below(3) {
        0 => {}
        1 => params[..4].copy_from_slice(&[size, -size, 0.0, 0.0]),
        _ => params[..4].copy_from_slice(&[1.0, 1.0, 0.0, 0.0]),
    }
}

/// eucm's k is 0 where alpha² beta q is 1.
fn ray_near_level(r: &mut Random) -> Place {
    let mut params = valid_camera(r, 1, 640.0, 480.0);
    plain(r, &mut params);
    if r.one_in(8) {
        params[4] = r.pick(&[0.5, 0.25, 1.0]);
        params[5] = r.pick(&[1.0, 0.25, 4.0]);
    }
    let radius = 1.0 / (params[4] * params[5].sqrt());
    let off = about_one(r);
    let pixel = pixel_at(r, &params, radius * off);
    Place { params, point: pixel, pixel }
}

/// bc with k1 = -1/(3q) alone has a singular matrix at the squared radius q. Newton starts there, or its first step leads
/// there.
fn matrix_near_singular(r: &mut Random) -> Place {
    if r.one_in(4) {
        return matrix_singular(r);
    }
    let mut params = valid_camera(r, 0, 640.0, 480.0);
    plain(r, &mut params);
    let radius = r.between(0.3, 2.0);
    let q = radius * radius;
    params[4] = -1.0 / (3.0 * q);
    let start = if r.one_in(2) { radius } else { (3.0 * q * leading_to_singular()).sqrt() };
    let off = about_one(r);
    let pixel = pixel_at(r, &params, start * off);
    Place { params, point: pixel, pixel }
}

/// With s for -k1 r², Newton's first step goes from r to r (1 - 2s)/(1 - 3s), and the matrix is singular at r/√(3s). Gives
/// the s for which the two are one.
fn leading_to_singular() -> f64 {
    let (mut low, mut high) = (0.0, 1.0 / 3.0);
    for _ in 0..60 {
        let s: f64 = (low + high) / 2.0;
        if (1.0 - 2.0 * s) / (1.0 - 3.0 * s) < 1.0 / (3.0 * s).sqrt() {
            low = s;
        } else {
            high = s;
        }
    }
    low
}

/// On an axis, with k1 = 3/q and k2 = -2/q² that are exact, the determinant is 0 itself.
fn matrix_singular(r: &mut Random) -> Place {
    let at = r.pick(&[0.5, 1.0, 2.0, -0.5, -1.0, -2.0]);
    let q = at * at;
    let mut params = Params::default();
    params[..4].copy_from_slice(&[r.pick(&[1.0, 256.0, -64.0]), r.pick(&[1.0, 128.0]), 0.0, r.pick(&[0.0, 64.0])]);
    params[4..6].copy_from_slice(&[3.0 / q, -2.0 / (q * q)]);
    let [x, y] = if r.one_in(2) { [at, 0.0] } else { [0.0, at] };
    let pixel = [x * params[0] + params[2], y * params[1] + params[3]];
    Place { params, point: [x, y], pixel }
}

/// kb whose Newton ends at or below 0: k0 below 0, or a start from which it goes to 4, to 0, to 4, .. without any rounding,
/// and is at 0 after twenty passes.
fn angle_below_zero(r: &mut Random) -> Place {
    let mut params = valid_camera(r, 2, 640.0, 480.0);
    plain(r, &mut params);
    if r.one_in(4) {
        params[..4].copy_from_slice(&[r.pick(&[1.0, -2.0, 64.0, 0.125]), r.pick(&[1.0, -8.0, 32.0]), 0.0, 16.0]);
        params[4..8].copy_from_slice(&[-17.0 / 32.0, 7.0 / 64.0, -1.0 / 256.0, 0.0]);
        let at = r.pick(&[4.0, -4.0]);
        let [x, y] = if r.one_in(2) { [at, 0.0] } else { [0.0, at] };
        let pixel = [x * params[0] + params[2], y * params[1] + params[3]];
        return Place { params, point: [x, y], pixel };
    }
    params[4] = r.between(-2.0, 0.0);
    let radius = r.between(0.1, 3.0);
    let pixel = pixel_at(r, &params, radius);
    Place { params, point: [radius, -radius], pixel }
}

/// bc without its quotient: zeros of either sign for k4, k5 and k6, and now and then for others.
fn zeros_of_either_sign(r: &mut Random) -> Place {
    let mut place = if r.one_in(3) { wild_place(r, 3) } else { valid(r, 3) };
    for i in 4..12 {
        if i >= 9 || r.one_in(6) {
            place.params[i] = r.pick(&[0.0, -0.0]);
        }
    }
    if r.one_in(6) {
        place.point[r.below(2)] = r.pick(&[0.0, -0.0]);
        place.pixel[r.below(2)] = r.pick(&[0.0, -0.0]);
    }
    place
}

/// bc12 as a bc lens, somebody's, a wild one or one of zeros_of_either_sign, with zeros of either sign for its prism.
fn prism_of_zeros(r: &mut Random) -> Place {
    let mut place = [valid, wild_place, |r: &mut Random, _: usize| zeros_of_either_sign(r)][r.below(3)](r, 3);
    for s in &mut place.params[12..] {
        *s = r.pick(&[0.0, -0.0]);
    }
    if r.one_in(4) {
        let all = r.pick(&[0.0, -0.0]);
        place.params[12..].fill(all);
    }
    place
}

/// bc12 with s1 = -1/(2x) and s2 = -1/(4x³) by turns, or s3 and s4 and y: its matrix is singular there on the axis. Newton starts
/// there.
fn prism_near_singular(r: &mut Random) -> Place {
    let mut params = valid_camera(r, 0, 640.0, 480.0);
    plain(r, &mut params);
    let exact = r.one_in(2);
    let at = if exact { r.pick(&[0.5, 1.0, 2.0, -0.5, -1.0, -2.0]) } else { r.between(0.3, 2.0) };
    let (second, fourth) = (r.one_in(2), r.one_in(2));
    params[12 + 2 * second as usize + fourth as usize] = if fourth { -1.0 / (4.0 * at * at * at) } else { -1.0 / (2.0 * at) };
    let off = if exact { at } else { at * about_one(r) };
    let [x, y] = if second { [0.0, off] } else { [off, 0.0] };
    let pixel = [x * params[0] + params[2], y * params[1] + params[3]];
    Place { params, point: [x, y], pixel }
}

impl Oracle {
    /// So many points at each sort of place, by all four operations.
    pub fn aimed(&mut self, points: u64) {
        let (mut met, mut like_bc) = ([0; KINDS.len()], [0; 3]);
        let draws: [(usize, fn(&mut Random) -> Place); 6] = [
            (1, ray_near_level),
            (3, matrix_near_singular),
            (2, angle_below_zero),
            (3, zeros_of_either_sign),
            (4, prism_of_zeros),
            (4, prism_near_singular),
        ];
        for (model, draw) in draws {
            for _ in 0..points {
                let place = draw(&mut self.random);
                for operation in 0..4 {
                    let at = if operation == 1 { place.pixel } else { place.point };
                    let q = Question::right(model, operation, place.params, at);
                    if q.without_rust() {
                        self.hold_number(&q, q.ask_ours());
                        continue;
                    }
                    let (owed, trace) = q.traced();
                    let ours = q.ask_ours();
                    self.hold(&q, ours, owed);
                    if model == 4 && operation < 3 && no_prism(&q.params) {
                        like_bc[operation] += self.hold_to_bc(&q, ours) as u64;
                    }
                    if operation == 1 {
                        let of = kinds(&q, owed.number, &trace);
                        met.iter_mut().zip(of).for_each(|(count, is)| *count += is as u64);
                    }
                }
            }
            self.points += points;
        }
        println!("aimed: {} points", draws.len() as u64 * points);
        println!("aimed: a prism of zeros, like bc's distort {}, undistort {}, dx_distort_x {}", like_bc[0], like_bc[1], like_bc[2]);
        self.met("a prism of zeros, answered by bc", &like_bc, &[0, 1, 2]);
        for (kind, count) in KINDS.iter().zip(met) {
            println!("aimed: {}: {}", kind, count);
            self.met(kind, &[count], &[0]);
        }
    }
}
