use crate::sys::header::LENS_OK;
use crate::{Pixel, Point, Refusal};

/// No refusal has this number, and the library never writes it.
const NOT_OBSERVED: u8 = u8::MAX;

/// What a point's pixel was undistorted to, in a list.
#[derive(Debug, Clone, Copy, PartialEq)]
pub struct Observed {
    /// The point on the plane z = 1.
    pub point: Point,
    /// Whether the search for it settled, as in [`Undistorted::settled`](crate::Undistorted::settled).
    pub settled: bool,
}

/// A record of a list: a pixel, and what [`Camera::observe`](crate::Camera::observe) found for it.
///
/// It has the layout of C's `lens_observation`, so a list crosses as it is, and nothing is copied.
#[repr(C)]
#[derive(Debug, Clone, Copy, PartialEq)]
pub struct Observation {
    pixel: Pixel,
    point: Point,
    settled: u8,
    number: u8,
    unused: [u8; 6],
}

impl Observation {
    /// A pixel that is not observed yet.
    pub const fn new(pixel: Pixel) -> Observation {
        Observation { pixel, point: Point { x: 0.0, y: 0.0 }, settled: 0, number: NOT_OBSERVED, unused: [0; 6] }
    }

    /// The pixel that was given.
    pub const fn pixel(&self) -> Pixel {
        self.pixel
    }

    /// Its point, or why it has none; `None` as long as no [`Camera::observe`](crate::Camera::observe) wrote this
    /// record.
    pub fn answer(&self) -> Option<Result<Observed, Refusal>> {
        if self.number == NOT_OBSERVED {
            None
        } else if usize::from(self.number) == LENS_OK {
            Some(Ok(Observed { point: self.point, settled: self.settled != 0 }))
        } else {
            Some(Err(Refusal::from_number(self.number)))
        }
    }
}

impl From<Pixel> for Observation {
    fn from(pixel: Pixel) -> Observation {
        Observation::new(pixel)
    }
}
