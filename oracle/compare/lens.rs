// The library under test, lens_c, as include/lens.h declares it: a slice is a pointer and a length.
extern "C" {
    fn lens_distort(model: u8, params: *const u8, handed: usize, x: f64, y: f64, answer: *mut u8, lent: usize) -> u8;
    fn lens_undistort(model: u8, params: *const u8, handed: usize, x: f64, y: f64, answer: *mut u8, lent: usize) -> u8;
    fn lens_dx_distort_x(model: u8, params: *const u8, handed: usize, x: f64, y: f64, answer: *mut u8, lent: usize) -> u8;
    fn lens_dx_distort_params(model: u8, params: *const u8, handed: usize, x: f64, y: f64, answer: *mut u8, lent: usize) -> u8;
    fn lens_root(x: f64) -> f64;
    fn lens_arctangent(x: f64) -> f64;
    fn lens_tangent(theta: f64, answer: *mut u8, lent: usize) -> u8;
    fn lens_job_new(
        model: u8,
        params: *const u8,
        handed: usize,
        width: u32,
        height: u32,
        strict: u8,
        job: *mut u8,
        lent: usize,
    ) -> u8;
    fn lens_turn(
        job: *mut u8,
        job_lent: usize,
        table: *mut f32,
        table_lent: usize,
        allowance: u64,
        answer: *mut u8,
        answer_lent: usize,
    ) -> u8;
    fn lens_turn16(
        job: *mut u8,
        job_lent: usize,
        table: *mut i16,
        table_lent: usize,
        allowance: u64,
        answer: *mut u8,
        answer_lent: usize,
    ) -> u8;
    fn lens_lookup(
        table: *const f32,
        table_handed: usize,
        region: *const u8,
        region_handed: usize,
        width: u32,
        height: u32,
        x: f64,
        y: f64,
        answer: *mut u8,
        lent: usize,
    ) -> u8;
    fn lens_observe(model: u8, params: *const u8, handed: usize, list: *mut u8, lent: usize) -> u8;
}

/// The bytes of each operation's answer.
pub const LENGTHS: [usize; 4] = [16, 24, 264, 264];

pub fn call(operation: usize, model: u8, params: &[u8], at: [f64; 2], answer: &mut [u8]) -> u8 {
    let f = [lens_distort, lens_undistort, lens_dx_distort_x, lens_dx_distort_params][operation];
    unsafe { f(model, params.as_ptr(), params.len(), at[0], at[1], answer.as_mut_ptr(), answer.len()) }
}

pub fn root(x: f64) -> f64 {
    unsafe { lens_root(x) }
}

pub fn arctangent(x: f64) -> f64 {
    unsafe { lens_arctangent(x) }
}

/// The tangent into what is lent.
pub fn tangent_into(theta: f64, answer: &mut [u8]) -> u8 {
    unsafe { lens_tangent(theta, answer.as_mut_ptr(), answer.len()) }
}

/// The tangent, or the number of its refusal.
pub fn tangent(theta: f64) -> Result<f64, u8> {
    let mut answer = [0; 8];
    match tangent_into(theta, &mut answer) {
        0 => Ok(f64::from_le_bytes(answer)),
        number => Err(number),
    }
}

pub fn job_new(model: u8, params: &[u8], size: [u32; 2], strict: u8, job: &mut [u8]) -> u8 {
    unsafe { lens_job_new(model, params.as_ptr(), params.len(), size[0], size[1], strict, job.as_mut_ptr(), job.len()) }
}

/// The table's floats are kept as their bits, so that a NaN is compared by its payload too.
pub fn turn(job: &mut [u8], table: &mut [u32], allowance: u64, answer: &mut [u8]) -> u8 {
    let (cells, floats) = (table.as_mut_ptr() as *mut f32, table.len());
    unsafe { lens_turn(job.as_mut_ptr(), job.len(), cells, floats, allowance, answer.as_mut_ptr(), answer.len()) }
}

pub fn turn16(job: &mut [u8], table: &mut [i16], allowance: u64, answer: &mut [u8]) -> u8 {
    let (cells, numbers) = (table.as_mut_ptr(), table.len());
    unsafe { lens_turn16(job.as_mut_ptr(), job.len(), cells, numbers, allowance, answer.as_mut_ptr(), answer.len()) }
}

pub fn lookup(table: &[u32], region: &[u8], size: [u32; 2], at: [f64; 2], answer: &mut [u8]) -> u8 {
    let (cells, floats) = (table.as_ptr() as *const f32, table.len());
    let (answer, lent) = (answer.as_mut_ptr(), answer.len());
    unsafe { lens_lookup(cells, floats, region.as_ptr(), region.len(), size[0], size[1], at[0], at[1], answer, lent) }
}

/// A list of observations, as the bytes of its records.
pub fn observe(model: u8, params: &[u8], list: &mut [u8]) -> u8 {
    unsafe { lens_observe(model, params.as_ptr(), params.len(), list.as_mut_ptr(), list.len()) }
}
