// What both counting programs are given: names and cases.
use rust_text::MOST_PARAMS;

/// As many parameters as a model has at most, and two coordinates.
pub type Case = [f64; MOST_PARAMS + 2];

pub use rust_text::NAMES as MODELS;
pub const OPERATIONS: [&str; 4] = ["distort", "undistort", "dx_distort_x", "dx_distort_params"];

pub fn place(names: &[&str], name: &str) -> usize {
    names.iter().position(|n| *n == name).expect("a known name")
}

pub fn read_cases(file: &str) -> Vec<Case> {
    let number = |word: &str| f64::from_bits(u64::from_str_radix(word, 16).expect("a bit pattern"));
    let case = |line: &str| {
        let words: Vec<f64> = line.split(' ').map(number).collect();
        std::array::from_fn(|i| words[i])
    };
    std::fs::read_to_string(file).expect("the cases").lines().map(case).collect()
}
