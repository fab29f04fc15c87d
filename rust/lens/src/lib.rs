#![doc = include_str!("../README.md")]
#![deny(unsafe_code)]
#![warn(missing_docs)]

mod camera;
mod job;
mod observation;
mod point;
mod refusal;
mod sys;
mod table;

pub use camera::{Camera, Model, Params};
pub use job::{Job, Number, Progress, Region, Turn};
pub use observation::{Observation, Observed};
pub use point::{Jacobian, Pixel, Point, Undistorted};
pub use refusal::Refusal;
pub use table::Table;

/// The f64 nearest to the square root of x. A zero and +infinity give themselves, a number below 0 or NaN gives NaN.
///
/// ```
/// assert_eq!(lens::root(2.25), 1.5);
/// ```
pub fn root(x: f64) -> f64 {
    sys::root(x)
}

/// The arctangent of x, within 2^-46 of the published series. A zero gives itself, NaN gives NaN.
///
/// ```
/// assert!((lens::arctangent(1.0) - std::f64::consts::FRAC_PI_4).abs() < 1e-13);
/// ```
pub fn arctangent(x: f64) -> f64 {
    sys::arctangent(x)
}

/// The tangent of an angle whose size is at most 99/64, else [`Refusal::AngleTooLarge`]. An angle that is NaN or
/// infinite is answered with NaN.
///
/// ```
/// assert!((lens::tangent(std::f64::consts::FRAC_PI_4)? - 1.0).abs() < 1e-12);
/// assert_eq!(lens::tangent(1.55), Err(lens::Refusal::AngleTooLarge));
/// # Ok::<(), lens::Refusal>(())
/// ```
pub fn tangent(theta: f64) -> Result<f64, Refusal> {
    sys::tangent(theta)
}
