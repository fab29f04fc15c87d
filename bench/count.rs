// Loops for bench/run to count.
//   cases MODEL OPERATION UPDATES: writes cases, one a line: valid ones, of which undistort does so many updates (- for any)
//   count NAME N CASES: N calls of a function of calls.rs, over the cases of a file; `none` is the loop alone
//   table SIDE MODEL W H N: N tables of that size
#[path = "../oracle/compare/cases.rs"]
#[allow(dead_code)]
mod cases;
#[allow(unused_variables)]
mod calls {
    include!(concat!(env!("BENCH_WORK"), "/calls.rs"));
}
mod given;

use calls::{apply, apply_table, none, Call, CALLS, TABLES};
use cases::{valid, Random};
use given::{place, read_cases, Case, MODELS, OPERATIONS};
use rust_text::distortion_table::distort_table;
use rust_text::distortions::{
    affine::AffineDistortionImpl, brown_conrady::BrownConradyDistortionImpl, enhanced_unified::EnhancedUnifiedDistortionImpl,
    kannala_brandt::KannalaBrandtDistortionImpl,
};
use rust_text::dyn_camera::{DynCameraF64, Lens};
use rust_text::traits::IsCameraDistortionImpl;
use rust_text::{ask, Angles, ImageSize, Num, Params, Platform, SVector, MOST_PARAMS};
use std::cell::Cell;
use std::hint::black_box;
use std::marker::PhantomData;

thread_local! {
    static UPDATES: Cell<u32> = const { Cell::new(0) };
}

/// The platform's functions, with the updates counted, to choose cases by.
#[derive(Clone, Copy, Debug)]
struct Counting;

impl Angles for Counting {
    fn arctangent(x: f64) -> f64 {
        Platform::arctangent(x)
    }
    fn tangent(theta: f64) -> f64 {
        Platform::tangent(theta)
    }
    fn updated() {
        UPDATES.with(|u| u.set(u.get() + 1))
    }
}

fn called(name: &str) -> Call {
    CALLS.iter().find(|(n, _)| *n == name).expect("a known call").1
}

/// A case of the model. For long searches the coefficients are stretched, as no settled lens has them.
fn draw(r: &mut Random, model: usize, operation: usize, stretched: bool) -> Case {
    let p = valid(r, model);
    let at = if operation == 1 { p.pixel } else { p.point };
    let stretch = if stretched { r.between(1.0, 20.0) } else { 1.0 };
    std::array::from_fn(|i| match i {
        0..=3 => p.params[i],
        _ if i < MOST_PARAMS => p.params[i] * stretch,
        _ => at[i - MOST_PARAMS],
    })
}

/// 64 cases that ours answers.
fn write_cases(model: &str, operation: &str, updates: &str) {
    let mut r = Random(20261115);
    if model == "one" {
        let high = if operation == "tangent" { 99.0 / 64.0 } else { 2.0 };
        for _ in 0..64 {
            line(&std::array::from_fn(|i| if i == MOST_PARAMS { r.between(0.0, high) } else { 0.0 }));
        }
        return;
    }
    let (m, o) = (place(&MODELS, model), place(&OPERATIONS, operation));
    let camera = called(&format!("camera_{}_{}", model, operation));
    let wanted: Option<u32> = updates.parse().ok();
    let stretched = wanted.map_or(false, |n| n > 8);
    let mut found = 0;
    while found < 64 {
        let c = draw(&mut r, m, o, stretched);
        UPDATES.with(|u| u.set(0));
        // of bc by its parameters the Rust can't be asked: it stops at a todo!()
        if (m, o) != (3, 3) {
            black_box(ask::<Counting>(m, o, &std::array::from_fn(|i| c[i]), [c[MOST_PARAMS], c[MOST_PARAMS + 1]]).numbers);
        }
        let done = UPDATES.with(|u| u.get());
        if wanted.map_or(true, |n| n == done) && !apply(camera, &c).is_nan() {
            line(&c);
            found += 1;
        }
    }
}

fn line(c: &Case) {
    println!("{}", c.map(|x| format!("{:016x}", x.to_bits())).join(" "));
}

fn count(name: &str, n: usize, cases: &[Case]) {
    let f = black_box(if name == "none" { none } else { called(name) });
    let mut sum = 0.0;
    for i in 0..n {
        sum += apply(f, &cases[i % 64]);
    }
    black_box(sum);
}

/// The Rust's camera as a table asks it: of the model D, with N parameters, the last K of them its own.
struct Plain<D, const K: usize, const N: usize>(SVector<Num<Platform>, N>, PhantomData<D>);

impl<D: IsCameraDistortionImpl<Num<Platform>, K, N, 1, 0, 0>, const K: usize, const N: usize> Lens for Plain<D, K, N> {
    fn distort(&self, point: [f64; 2]) -> [f64; 2] {
        D::distort(self.0, SVector(point.map(Num::of))).0.map(|x| x.0)
    }
    fn undistort(&self, pixel: [f64; 2]) -> [f64; 2] {
        D::undistort(self.0, SVector(pixel.map(Num::of))).0.map(|x| x.0)
    }
}

fn plain<D: IsCameraDistortionImpl<Num<Platform>, K, N, 1, 0, 0> + 'static, const K: usize, const N: usize>(
    params: &Params,
) -> Box<dyn Lens> {
    Box::new(Plain::<D, K, N>(SVector(std::array::from_fn(|i| Num::of(params[i]))), PhantomData))
}

fn rust_lens(model: usize, params: &Params) -> Box<dyn Lens> {
    match model {
        0 => plain::<AffineDistortionImpl<Num<Platform>, 1, 0, 0>, 0, 4>(params),
        1 => plain::<EnhancedUnifiedDistortionImpl<Num<Platform>, 1, 0, 0>, 2, 6>(params),
        2 => plain::<KannalaBrandtDistortionImpl<Num<Platform>, 1, 0, 0>, 4, 8>(params),
        3 => plain::<BrownConradyDistortionImpl<Num<Platform>, 1, 0, 0>, 8, 12>(params),
        _ => panic!("the Rust has no such model"),
    }
}

/// A camera for tables of 32 to 48 cells a side.
fn table_params(model: usize) -> Params {
    let mut p = Params::default();
    p[..4].copy_from_slice(&[40.0, 41.0, 20.0, 15.0]);
    let own: &[f64] = [
        &[][..],
        &[0.6, 1.1],
        &[0.1, 0.01, 0.001, 0.0001],
        &[0.1, 0.01, 0.001, 0.0005, 0.001, 0.02, 0.01, 0.001],
        &[0.1, 0.01, 0.001, 0.0005, 0.001, 0.02, 0.01, 0.001, 0.001, 0.0002, -0.002, 0.0005],
    ][model];
    p[4..4 + own.len()].copy_from_slice(own);
    p
}

fn tables(side: &str, model: usize, width: usize, height: usize, n: usize) {
    let p = table_params(model);
    let mut cells = vec![0f32; 2 * width * height];
    let rust = side == "rust";
    let camera = if rust { Some(DynCameraF64 { lens: rust_lens(model, &p), size: ImageSize { width, height } }) } else { None };
    let case = std::array::from_fn(|i| if i < MOST_PARAMS { p[i] } else { 0.0 });
    for _ in 0..n {
        if let Some(camera) = &camera {
            black_box(distort_table(black_box(camera)));
        } else {
            let done = apply_table(black_box(TABLES[model]), &case, width, height, &mut cells);
            assert_eq!(done, 2 * width + 2 * height + width * height);
        }
    }
    black_box(cells);
}

fn main() {
    let args: Vec<String> = std::env::args().skip(1).collect();
    let a: Vec<&str> = args.iter().map(|s| s.as_str()).collect();
    let n = |i: usize| a[i].parse::<usize>().expect("a count");
    match a[0] {
        "cases" => write_cases(a[1], a[2], a[3]),
        "count" => count(a[1], n(2), &read_cases(a[3])),
        "table" => tables(a[1], place(&MODELS, a[2]), n(3), n(4), n(5)),
        _ => panic!("cases, count or table"),
    }
}
