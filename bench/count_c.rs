// MODEL OPERATION N CASES: a loop of N calls through lens_c, for bench/run to count. A program of its own, so that what is below
// lens_c is lens_c's copy and not that of the library that count.rs links.
mod given;
#[path = "../oracle/compare/lens.rs"]
#[allow(dead_code)]
mod lens;

use given::{place, read_cases, MODELS, OPERATIONS};
use std::hint::black_box;

fn main() {
    let a: Vec<String> = std::env::args().skip(1).collect();
    let (model, operation) = (place(&MODELS, &a[0]), place(&OPERATIONS, &a[1]));
    let n: usize = a[2].parse().expect("a count");
    let cases = read_cases(&a[3]);
    let count = rust_text::COUNTS[model];
    let bytes: Vec<Vec<u8>> = cases.iter().map(|c| c[..count].iter().flat_map(|x| x.to_le_bytes()).collect()).collect();
    let mut answer = vec![0; lens::LENGTHS[operation]];
    for i in 0..n {
        let c = &cases[i % 64];
        black_box(lens::call(operation, model as u8, &bytes[i % 64], [c[rust_text::MOST_PARAMS], c[rust_text::MOST_PARAMS + 1]], &mut answer));
    }
}
