use crate::sys::JacobianAnswer;

/// A point on the plane z = 1.
#[repr(C)]
#[derive(Debug, Clone, Copy, PartialEq, Default)]
pub struct Point {
    /// To the right.
    pub x: f64,
    /// Down.
    pub y: f64,
}

/// A pixel, or a place between pixels.
#[repr(C)]
#[derive(Debug, Clone, Copy, PartialEq, Default)]
pub struct Pixel {
    /// The column.
    pub u: f64,
    /// The row.
    pub v: f64,
}

impl Point {
    /// The point (x, y).
    pub const fn new(x: f64, y: f64) -> Point {
        Point { x, y }
    }
}

impl Pixel {
    /// The pixel (u, v).
    pub const fn new(u: f64, v: f64) -> Pixel {
        Pixel { u, v }
    }
}

impl From<[f64; 2]> for Point {
    fn from([x, y]: [f64; 2]) -> Point {
        Point { x, y }
    }
}

impl From<Point> for [f64; 2] {
    fn from(point: Point) -> [f64; 2] {
        [point.x, point.y]
    }
}

impl From<[f64; 2]> for Pixel {
    fn from([u, v]: [f64; 2]) -> Pixel {
        Pixel { u, v }
    }
}

impl From<Pixel> for [f64; 2] {
    fn from(pixel: Pixel) -> [f64; 2] {
        [pixel.u, pixel.v]
    }
}

/// What [`Camera::undistort`](crate::Camera::undistort) finds.
#[derive(Debug, Clone, Copy, PartialEq)]
pub struct Undistorted {
    /// The point on the plane z = 1.
    pub point: Point,
    /// How many of Newton's updates the search took: none for models that have a formula.
    pub updates: u32,
    /// Whether the search settled. If it did not, distorting the point need not come back to the pixel.
    pub settled: bool,
}

/// The derivative of a pixel by a camera's parameters: a row for u and a row for v, a column for each parameter.
#[derive(Clone, Copy)]
pub struct Jacobian(JacobianAnswer);

impl Jacobian {
    pub(crate) fn of(answer: JacobianAnswer) -> Jacobian {
        Jacobian(answer)
    }

    /// How many columns there are: the model's count of parameters.
    pub fn columns(&self) -> usize {
        self.rows()[0].len()
    }

    /// The derivatives of u.
    pub fn row_u(&self) -> &[f64] {
        self.rows()[0]
    }

    /// The derivatives of v.
    pub fn row_v(&self) -> &[f64] {
        self.rows()[1]
    }

    /// Both rows, that of u first.
    pub fn rows(&self) -> [&[f64]; 2] {
        // The library never answers more columns than two rows of them have room for.
        let most = self.0.entries.len() / 2;
        let columns = usize::try_from(self.0.columns).map_or(most, |n| n.min(most));
        let (u, rest) = self.0.entries.split_at(columns);
        [u, rest.split_at(columns).0]
    }
}

impl std::fmt::Debug for Jacobian {
    fn fmt(&self, f: &mut std::fmt::Formatter<'_>) -> std::fmt::Result {
        self.rows().fmt(f)
    }
}

impl PartialEq for Jacobian {
    fn eq(&self, other: &Jacobian) -> bool {
        self.rows() == other.rows()
    }
}
