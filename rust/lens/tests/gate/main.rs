//! This crate against the rest of the repository: include/lens.h, and the calls that the gate makes with their answers.
mod camera_calls;
mod head_calls;
mod header;
mod odd;
mod vectors;
