//! The C library as include/lens.h declares it, and the only place with `unsafe`: each function behind a safe one.
//!
//! What the header says that a caller owes is kept by types. Pointers and lengths come from slices, so they are not
//! null, and aligned, and so much memory is there; what the library may write is lent by `&mut`, so it overlaps nothing
//! and nobody else reads or writes it. Arithmetic is as a program finds it at its start, which Rust asks for anyway.
#![allow(unsafe_code)]
#![deny(unsafe_op_in_unsafe_fn)]

use crate::{Observation, Pixel, Refusal};
use std::mem::{size_of, size_of_val};
use std::slice;

/// The numbers of include/lens.h, by build.rs.
#[allow(dead_code)]
pub mod header {
    include!(concat!(env!("OUT_DIR"), "/header.rs"));
}
use header::*;

// tests/gate/header.rs compares these with the header's text.
extern "C" {
    fn lens_distort(
        model: u8,
        params: *const u8,
        params_length: usize,
        x: f64,
        y: f64,
        answer: *mut u8,
        answer_length: usize,
    ) -> u8;
    fn lens_undistort(
        model: u8,
        params: *const u8,
        params_length: usize,
        u: f64,
        v: f64,
        answer: *mut u8,
        answer_length: usize,
    ) -> u8;
    fn lens_dx_distort_x(
        model: u8,
        params: *const u8,
        params_length: usize,
        x: f64,
        y: f64,
        answer: *mut u8,
        answer_length: usize,
    ) -> u8;
    fn lens_dx_distort_params(
        model: u8,
        params: *const u8,
        params_length: usize,
        x: f64,
        y: f64,
        answer: *mut u8,
        answer_length: usize,
    ) -> u8;
    fn lens_job_new(
        model: u8,
        params: *const u8,
        params_length: usize,
        width: u32,
        height: u32,
        strict: u8,
        job: *mut u8,
        job_length: usize,
    ) -> u8;
    fn lens_turn(
        job: *mut u8,
        job_length: usize,
        table: *mut f32,
        table_length: usize,
        allowance: u64,
        answer: *mut u8,
        answer_length: usize,
    ) -> u8;
    fn lens_turn16(
        job: *mut u8,
        job_length: usize,
        table: *mut i16,
        table_length: usize,
        allowance: u64,
        answer: *mut u8,
        answer_length: usize,
    ) -> u8;
    fn lens_lookup(
        table: *const f32,
        table_length: usize,
        region: *const u8,
        region_length: usize,
        width: u32,
        height: u32,
        x: f64,
        y: f64,
        answer: *mut u8,
        answer_length: usize,
    ) -> u8;
    fn lens_observe(model: u8, params: *const u8, params_length: usize, list: *mut u8, list_length: usize) -> u8;
    fn lens_root(x: f64) -> f64;
    fn lens_arctangent(x: f64) -> f64;
    fn lens_tangent(theta: f64, answer: *mut u8, answer_length: usize) -> u8;
}

/// What crosses as bytes.
///
/// # Safety
///
/// The type has C's layout or is one number, has no padding, and any bits are a value of it.
unsafe trait Plain: Copy {}

unsafe impl Plain for f64 {}
unsafe impl Plain for Pixel {}
unsafe impl Plain for PointAnswer {}
unsafe impl Plain for JacobianAnswer {}
unsafe impl Plain for TurnAnswer {}
unsafe impl Plain for Record {}
unsafe impl Plain for Observation {}

fn bytes<T: Plain>(of: &[T]) -> &[u8] {
    // SAFETY: these bytes are the slice's, each has a value as there is no padding, and a u8 may have any address.
    unsafe { slice::from_raw_parts(of.as_ptr().cast(), size_of_val(of)) }
}

fn bytes_mut<T: Plain>(of: &mut [T]) -> &mut [u8] {
    // SAFETY: as in `bytes`, and whatever is written is a value of T.
    unsafe { slice::from_raw_parts_mut(of.as_mut_ptr().cast(), size_of_val(of)) }
}

/// The answer of lens_undistort.
#[repr(C)]
#[derive(Clone, Copy, Default)]
pub struct PointAnswer {
    pub x: f64,
    pub y: f64,
    pub updates: u32,
    pub settled: u8,
    zeros: [u8; 3],
}

/// The answer of both derivatives.
#[repr(C)]
#[derive(Clone, Copy, Default)]
pub struct JacobianAnswer {
    pub entries: [f64; LENS_JACOBIAN_COLUMNS / 8],
    pub columns: u64,
}

/// The answer of a turn.
#[repr(C)]
#[derive(Clone, Copy, Default)]
pub struct TurnAnswer {
    pub status: u64,
    pub done: u64,
    pub units: u64,
    pub updates: u64,
    pub unsettled: u64,
    pub first: u64,
}

/// How many parameters a job has room for: as many as a model has at most.
pub const PARAMS_MOST: usize = (LENS_JOB_WIDTH - LENS_JOB_PARAMS) / 8;

/// A job, its doubles as bit patterns: two are the same exactly if their bytes are.
#[repr(C)]
#[derive(Clone, Copy, PartialEq, Eq, Default)]
pub struct Record {
    pub model: u32,
    pub updates: u32,
    params: [u64; PARAMS_MOST],
    pub width: u32,
    pub height: u32,
    pub done: u64,
    edges: [u64; 4],
    pub region: [u64; 4],
    pub unsettled: u32,
    pub first: u32,
    pub strict: u64,
    check: u64,
}

// Sizes that differ from the header's are errors of compilation; places are compared in sys/tests.rs.
const _: () = assert!(size_of::<Pixel>() == LENS_PIXEL_BYTES);
const _: () = assert!(size_of::<PointAnswer>() == LENS_POINT_BYTES);
const _: () = assert!(size_of::<JacobianAnswer>() == LENS_JACOBIAN_BYTES);
const _: () = assert!(size_of::<TurnAnswer>() == LENS_TURN_BYTES);
const _: () = assert!(size_of::<Record>() == LENS_JOB_BYTES);
const _: () = assert!(size_of::<[f64; 4]>() == LENS_REGION_BYTES);
const _: () = assert!(size_of::<f64>() == LENS_TANGENT_BYTES);
const _: () = assert!(size_of::<Observation>() == LENS_OBSERVATION_BYTES);
const _: () = assert!(cfg!(target_endian = "little"));

impl Record {
    pub fn bytes(&self) -> &[u8] {
        bytes(slice::from_ref(self))
    }

    /// None if there aren't as many bytes as a job has.
    pub fn of_bytes(from: &[u8]) -> Option<Record> {
        let mut record = Record::default();
        let to = bytes_mut(slice::from_mut(&mut record));
        if from.len() != to.len() {
            return None;
        }
        to.copy_from_slice(from);
        Some(record)
    }
}

/// What a number returned says: 0, and the answer; or a refusal.
fn answer<A>(number: u8, answer: A) -> Result<A, Refusal> {
    match usize::from(number) {
        LENS_OK => Ok(answer),
        _ => Err(Refusal::from_number(number)),
    }
}

type OfPoint = unsafe extern "C" fn(u8, *const u8, usize, f64, f64, *mut u8, usize) -> u8;

/// One of the camera's four calls.
///
/// # Safety
///
/// `call` is one of them: it reads and writes the buffers that it is handed and no other memory.
unsafe fn of_point<A: Plain + Default>(call: OfPoint, model: u8, params: &[f64], at: [f64; 2]) -> Result<A, Refusal> {
    let (params, mut out) = (bytes(params), [A::default()]);
    let to = bytes_mut(&mut out);
    // SAFETY: both pairs are slices, and the one that is written is borrowed for this call alone.
    let number = unsafe { call(model, params.as_ptr(), params.len(), at[0], at[1], to.as_mut_ptr(), to.len()) };
    answer(number, out[0])
}

pub fn distort(model: u8, params: &[f64], point: [f64; 2]) -> Result<Pixel, Refusal> {
    // SAFETY: it is one of the four.
    unsafe { of_point(lens_distort, model, params, point) }
}

pub fn undistort(model: u8, params: &[f64], pixel: [f64; 2]) -> Result<PointAnswer, Refusal> {
    // SAFETY: it is one of the four.
    unsafe { of_point(lens_undistort, model, params, pixel) }
}

pub fn dx_distort_x(model: u8, params: &[f64], point: [f64; 2]) -> Result<JacobianAnswer, Refusal> {
    // SAFETY: it is one of the four.
    unsafe { of_point(lens_dx_distort_x, model, params, point) }
}

pub fn dx_distort_params(model: u8, params: &[f64], point: [f64; 2]) -> Result<JacobianAnswer, Refusal> {
    // SAFETY: it is one of the four.
    unsafe { of_point(lens_dx_distort_params, model, params, point) }
}

pub fn observe(model: u8, params: &[f64], list: &mut [Observation]) -> Result<(), Refusal> {
    let (params, list) = (bytes(params), bytes_mut(list));
    // SAFETY: both pairs are slices, and the list is borrowed for this call alone.
    let number = unsafe { lens_observe(model, params.as_ptr(), params.len(), list.as_mut_ptr(), list.len()) };
    answer(number, ())
}

pub fn job_new(model: u8, params: &[f64], width: u32, height: u32, strict: bool) -> Result<Record, Refusal> {
    let (params, mut job) = (bytes(params), [Record::default()]);
    let to = bytes_mut(&mut job);
    let strict = u8::from(strict);
    // SAFETY: both pairs are slices, and the job is borrowed for this call alone.
    let number =
        unsafe { lens_job_new(model, params.as_ptr(), params.len(), width, height, strict, to.as_mut_ptr(), to.len()) };
    answer(number, job[0])
}

type OfJob<N> = unsafe extern "C" fn(*mut u8, usize, *mut N, usize, u64, *mut u8, usize) -> u8;

/// One of the two turns.
///
/// # Safety
///
/// `call` is the one for tables of N: it reads and writes the buffers that it is handed and no other memory.
unsafe fn of_job<N>(call: OfJob<N>, job: &mut Record, table: &mut [N], units: u64) -> Result<TurnAnswer, Refusal> {
    let mut out = [TurnAnswer::default()];
    let (job, to) = (bytes_mut(slice::from_mut(job)), bytes_mut(&mut out));
    // SAFETY: the three pairs are slices, each borrowed for this call alone.
    let number =
        unsafe { call(job.as_mut_ptr(), job.len(), table.as_mut_ptr(), table.len(), units, to.as_mut_ptr(), to.len()) };
    answer(number, out[0])
}

pub fn turn(job: &mut Record, table: &mut [f32], units: u64) -> Result<TurnAnswer, Refusal> {
    // SAFETY: it is the one for floats.
    unsafe { of_job(lens_turn, job, table, units) }
}

pub fn turn16(job: &mut Record, table: &mut [i16], units: u64) -> Result<TurnAnswer, Refusal> {
    // SAFETY: it is the one for sixteen bits.
    unsafe { of_job(lens_turn16, job, table, units) }
}

pub fn lookup(table: &[f32], region: [f64; 4], width: u32, height: u32, point: [f64; 2]) -> Result<Pixel, Refusal> {
    let (region, mut out) = (bytes(&region), [Pixel::default()]);
    let to = bytes_mut(&mut out);
    let [x, y] = point;
    // SAFETY: the three pairs are slices, and the one that is written is borrowed for this call alone.
    let number = unsafe {
        lens_lookup(
            table.as_ptr(),
            table.len(),
            region.as_ptr(),
            region.len(),
            width,
            height,
            x,
            y,
            to.as_mut_ptr(),
            to.len(),
        )
    };
    answer(number, out[0])
}

pub fn root(x: f64) -> f64 {
    // SAFETY: it takes every number, and no memory.
    unsafe { lens_root(x) }
}

pub fn arctangent(x: f64) -> f64 {
    // SAFETY: it takes every number, and no memory.
    unsafe { lens_arctangent(x) }
}

pub fn tangent(theta: f64) -> Result<f64, Refusal> {
    let mut out = [0.0];
    let to = bytes_mut(&mut out);
    // SAFETY: the pair is a slice, borrowed for this call alone.
    let number = unsafe { lens_tangent(theta, to.as_mut_ptr(), to.len()) };
    answer(number, out[0])
}

#[cfg(test)]
mod tests;
