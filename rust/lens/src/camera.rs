use crate::sys::header::*;
use crate::sys::{self, PARAMS_MOST};
use crate::{Jacobian, Observation, Pixel, Point, Refusal, Undistorted};
use std::{fmt, ops, str};

/// What a parameter is, for the documentation.
macro_rules! meaning {
    (fx) => {
        "Focal length across, in pixels."
    };
    (fy) => {
        "Focal length down, in pixels."
    };
    (cx) => {
        "Column of the pixel that the point (0, 0) has."
    };
    (cy) => {
        "Row of the pixel that the point (0, 0) has."
    };
    ($other:ident) => {
        "A coefficient of the model."
    };
}

/// Says each model once: its name in Rust, in include/lens.h and in a camera file, and its parameters in order.
macro_rules! models {
    ($($(#[$doc:meta])* $model:ident($number:ident, $count:ident, $name:literal) { $($param:ident),* })*) => {
        /// A lens: one of the models, with its parameters.
        ///
        /// A camera may hold any numbers. Each call judges them: [`Refusal::NotFinite`], [`Refusal::ZeroFocalLength`].
        ///
        /// ```
        /// use lens::{Camera, Point, Refusal};
        ///
        /// let camera = Camera::Affine { fx: 600.0, fy: 600.0, cx: 1.0, cy: 0.5 };
        /// let pixel = camera.distort(Point::new(0.5, -0.25))?;
        /// assert_eq!((pixel.u, pixel.v), (301.0, -149.5));
        ///
        /// let none = Camera::Affine { fx: 0.0, fy: 600.0, cx: 1.0, cy: 0.5 };
        /// assert_eq!(none.distort(Point::new(0.5, -0.25)), Err(Refusal::ZeroFocalLength));
        /// # Ok::<(), Refusal>(())
        /// ```
        #[non_exhaustive]
        #[derive(Debug, Clone, Copy, PartialEq)]
        pub enum Camera {
            $($(#[$doc])* $model { $(#[doc = meaning!($param)] $param: f64),* },)*
        }

        /// Which of the models.
        #[non_exhaustive]
        #[derive(Debug, Clone, Copy, PartialEq, Eq, Hash)]
        pub enum Model {
            $(#[doc = concat!("[`Camera::", stringify!($model), "`], `", $name, "` in a camera file.")] $model,)*
        }

        impl Model {
            /// All models, in the order of their numbers.
            pub const ALL: &'static [Model] = &[$(Model::$model),*];

            /// The number in include/lens.h.
            pub const fn number(self) -> u8 {
                match self {
                    $(Model::$model => $number as u8,)*
                }
            }

            /// The name in a camera file.
            pub const fn name(self) -> &'static str {
                match self {
                    $(Model::$model => $name,)*
                }
            }

            /// The names of the parameters, in the order of [`Camera::params`] and of the columns of
            /// [`Camera::dx_distort_params`].
            pub const fn param_names(self) -> &'static [&'static str] {
                match self {
                    $(Model::$model => &[$(stringify!($param)),*],)*
                }
            }
        }

        impl Camera {
            /// The model.
            pub const fn model(&self) -> Model {
                match self {
                    $(Camera::$model { .. } => Model::$model,)*
                }
            }

            /// The parameters, in the order of [`Model::param_names`].
            pub fn params(&self) -> Params {
                match *self {
                    $(Camera::$model { $($param),* } => Params::of(&[$($param),*]),)*
                }
            }

            /// A camera out of its parameters, in the order of [`Model::param_names`]; [`Refusal::WrongCount`] if the
            /// model has not as many.
            pub fn from_params(model: Model, params: &[f64]) -> Result<Camera, Refusal> {
                match model {
                    $(Model::$model => match *params {
                        [$($param),*] => Ok(Camera::$model { $($param),* }),
                        _ => Err(Refusal::WrongCount),
                    },)*
                }
            }
        }

        $(const _: () = assert!(Model::$model.param_names().len() == $count && $count <= PARAMS_MOST);)*
    };
}

models! {
    /// No distortion: the pinhole.
    Affine(LENS_AFFINE, LENS_AFFINE_COUNT, "affine") { fx, fy, cx, cy }

    /// The enhanced unified model.
    EnhancedUnified(LENS_EUCM, LENS_EUCM_COUNT, "eucm") { fx, fy, cx, cy, alpha, beta }

    /// The model of Kannala and Brandt, for fisheyes.
    KannalaBrandt(LENS_KB, LENS_KB_COUNT, "kb") { fx, fy, cx, cy, k0, k1, k2, k3 }

    /// The model of Brown and Conrady, with OpenCV's quotient.
    BrownConrady(LENS_BC, LENS_BC_COUNT, "bc") { fx, fy, cx, cy, k1, k2, p1, p2, k3, k4, k5, k6 }

    /// Brown and Conrady's with OpenCV's thin prism behind it.
    ThinPrism(LENS_BC12, LENS_BC12_COUNT, "bc12") {
        fx, fy, cx, cy, k1, k2, p1, p2, k3, k4, k5, k6, s1, s2, s3, s4
    }
}

impl fmt::Display for Model {
    fn fmt(&self, f: &mut fmt::Formatter<'_>) -> fmt::Result {
        f.write_str(self.name())
    }
}

/// Reads the name that a camera file has: `affine`, `eucm`, and so on.
impl str::FromStr for Model {
    type Err = Refusal;

    fn from_str(name: &str) -> Result<Model, Refusal> {
        Model::ALL.iter().copied().find(|model| model.name() == name).ok_or(Refusal::UnknownModel)
    }
}

/// A camera's parameters. It is read as a slice.
#[derive(Clone, Copy)]
pub struct Params {
    values: [f64; PARAMS_MOST],
    count: usize,
}

impl Params {
    fn of(params: &[f64]) -> Params {
        let mut values = [0.0; PARAMS_MOST];
        values.iter_mut().zip(params).for_each(|(to, from)| *to = *from);
        Params { values, count: params.len() }
    }
}

impl ops::Deref for Params {
    type Target = [f64];

    fn deref(&self) -> &[f64] {
        self.values.get(..self.count).unwrap_or(&self.values)
    }
}

impl fmt::Debug for Params {
    fn fmt(&self, f: &mut fmt::Formatter<'_>) -> fmt::Result {
        (**self).fmt(f)
    }
}

impl PartialEq for Params {
    fn eq(&self, other: &Params) -> bool {
        **self == **other
    }
}

impl Camera {
    /// The number and the parameters, as every call takes them.
    pub(crate) fn parts(&self) -> (u8, Params) {
        (self.model().number(), self.params())
    }

    /// The pixel of a point on the plane z = 1.
    pub fn distort(&self, point: Point) -> Result<Pixel, Refusal> {
        let (model, params) = self.parts();
        sys::distort(model, &params, point.into())
    }

    /// The point of a pixel. A search that did not settle is answered all the same: [`Undistorted::settled`].
    ///
    /// ```
    /// use lens::{Camera, Pixel, Refusal};
    ///
    /// let (fx, fy, cx, cy) = (1.0, 1.0, 0.0, 0.0);
    /// let camera = Camera::EnhancedUnified { fx, fy, cx, cy, alpha: 0.5, beta: 1.0 };
    /// let found = camera.undistort(Pixel::new(1.0, 1.0))?;
    /// assert_eq!((found.point.x, found.point.y, found.settled), (2.0, 2.0, true));
    ///
    /// // The ray of this pixel points backwards.
    /// assert_eq!(camera.undistort(Pixel::new(2.0, 2.0)), Err(Refusal::RayNotForward));
    /// # Ok::<(), Refusal>(())
    /// ```
    pub fn undistort(&self, pixel: Pixel) -> Result<Undistorted, Refusal> {
        let (model, params) = self.parts();
        let found = sys::undistort(model, &params, pixel.into())?;
        let point = Point { x: found.x, y: found.y };
        Ok(Undistorted { point, updates: found.updates, settled: found.settled != 0 })
    }

    /// The derivative of the pixel by the point: the row of u and the row of v, each by x and by y.
    ///
    /// ```
    /// use lens::{Camera, Point, Refusal};
    ///
    /// let camera = Camera::Affine { fx: 600.0, fy: 400.0, cx: 1.0, cy: 0.5 };
    /// assert_eq!(camera.dx_distort_x(Point::new(0.5, -0.25))?, [[600.0, 0.0], [0.0, 400.0]]);
    /// # Ok::<(), Refusal>(())
    /// ```
    pub fn dx_distort_x(&self, point: Point) -> Result<[[f64; 2]; 2], Refusal> {
        let (model, params) = self.parts();
        let [a, b, c, d, ..] = sys::dx_distort_x(model, &params, point.into())?.entries;
        Ok([[a, b], [c, d]])
    }

    /// The derivative of the pixel by the parameters, a column for each in the order of [`Model::param_names`].
    ///
    /// ```
    /// use lens::{Camera, Point, Refusal};
    ///
    /// let camera = Camera::Affine { fx: 600.0, fy: 400.0, cx: 1.0, cy: 0.5 };
    /// let slopes = camera.dx_distort_params(Point::new(0.5, -0.25))?;
    /// assert_eq!(slopes.row_u(), [0.5, 0.0, 1.0, 0.0]);
    /// assert_eq!(slopes.row_v(), [0.0, -0.25, 0.0, 1.0]);
    /// # Ok::<(), Refusal>(())
    /// ```
    pub fn dx_distort_params(&self, point: Point) -> Result<Jacobian, Refusal> {
        let (model, params) = self.parts();
        sys::dx_distort_params(model, &params, point.into()).map(Jacobian::of)
    }

    /// The point of every pixel of a list, each record by itself: one that is refused does not stop the next. The
    /// records are written where they are. An error is the camera's, and then none is written.
    ///
    /// ```
    /// use lens::{Camera, Observation, Pixel, Refusal};
    ///
    /// let camera = Camera::Affine { fx: 2.0, fy: 4.0, cx: 1.0, cy: 0.0 };
    /// let mut list = [Pixel::new(3.0, 8.0), Pixel::new(f64::NAN, 8.0)].map(Observation::new);
    /// camera.observe(&mut list)?;
    /// let answers: Vec<_> = list.iter().filter_map(Observation::answer).collect();
    /// assert_eq!(answers[0].map(|seen| (seen.point.x, seen.point.y)), Ok((1.0, 2.0)));
    /// assert_eq!(answers[1], Err(Refusal::NotFinite));
    /// # Ok::<(), Refusal>(())
    /// ```
    pub fn observe(&self, list: &mut [Observation]) -> Result<(), Refusal> {
        let (model, params) = self.parts();
        sys::observe(model, &params, list)
    }
}
