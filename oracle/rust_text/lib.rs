// The Rust's five files, compiled where they stand: the environment variable SENSOR_FILES, set by oracle/run and bench/run,
// names their folder. What they import from other crates is stood in for by the modules here, in f64 alone and no more of it
// than the five files ask for. `extern crate self` puts this crate in the place of each crate that they name.
//
// What a reader should check is short: the order of operations in norm, matrix times vector, scaled matrix, and the box
// region's centre and range, which the five files don't show. They are docs/DIFFERENCES.md, section 3. And thin_prism, bc12: the
// five files have none of it.
extern crate self as log;
extern crate self as nalgebra;
extern crate self as sophus_autodiff;
extern crate self as sophus_geo;
extern crate self as sophus_image;

mod arrays;
mod ask;
mod scalar;
mod tables;
mod thin_prism;

pub use arrays::{SMatrix, SVector, UnitVector3};
pub use ask::{ask, ask_model, Answer, Params, Platform, COUNTS, LIMITS, MOST_PARAMS, NAMES, NO_MODEL};
pub use scalar::{Angles, Num};
pub use tables::{interpolate_xf32, ArcImage2F32, ImageSize, MutImage2F32};

/// The Rust's warning says what the stand-in already notes, the answer of the mask's `any`.
#[macro_export]
macro_rules! warn {
    ($($text:tt)*) => {{
        let _ = format_args!($($text)*);
    }};
}

pub mod linalg {
    /// Document 01: 1e-6 until the commit is read.
    pub const EPS_F64: f64 = 1e-6;
    pub type VecF64<const N: usize> = crate::SVector<f64, N>;
}

pub mod params {
    use crate::prelude::IsScalar;

    pub trait IsParamsImpl<S: IsScalar<BATCH, DM, DN>, const PARAMS: usize, const BATCH: usize, const DM: usize, const DN: usize>
    {
        fn are_params_valid(params: S::Vector<PARAMS>) -> S::Mask;
        fn params_examples() -> Vec<S::Vector<PARAMS>>;
        fn invalid_params_examples() -> Vec<S::Vector<PARAMS>>;
    }
}

pub mod prelude {
    pub use crate::arrays::{IsMatrix, IsVector};
    pub use crate::scalar::{IsMask, IsScalar};
}

pub mod region {
    pub use crate::tables::BoxRegion;
}

pub mod dyn_camera {
    pub use crate::tables::{DynCameraF64, Lens};
}

pub mod traits {
    use crate::{prelude::IsScalar, UnitVector3};
    use core::borrow::Borrow;

    pub trait IsCameraDistortionImpl<
        S: IsScalar<BATCH, DM, DN>,
        const DISTORT: usize,
        const PARAMS: usize,
        const BATCH: usize,
        const DM: usize,
        const DN: usize,
    >
    {
        fn distort<PA, PO>(params: PA, proj_point_in_camera_z1_plane: PO) -> S::Vector<2>
        where
            PA: Borrow<S::Vector<PARAMS>>,
            PO: Borrow<S::Vector<2>>;

        fn undistort<PA, PO>(params: PA, distorted_point: PO) -> S::Vector<2>
        where
            PA: Borrow<S::Vector<PARAMS>>,
            PO: Borrow<S::Vector<2>>;

        fn dx_distort_x<PA, PO>(params: PA, proj_point_in_camera_z1_plane: PO) -> S::Matrix<2, 2>
        where
            PA: Borrow<S::Vector<PARAMS>>,
            PO: Borrow<S::Vector<2>>;

        fn dx_distort_params<PA, PO>(params: PA, proj_point_in_camera_z1_plane: PO) -> S::Matrix<2, PARAMS>
        where
            PA: Borrow<S::Vector<PARAMS>>,
            PO: Borrow<S::Vector<2>>;

        /// Not ported, so not called; one of the models has its own.
        fn undistort_to_unit_vector<PA, PO>(_: PA, _: PO) -> UnitVector3<S, BATCH, DM, DN>
        where
            PA: Borrow<S::Vector<PARAMS>>,
            PO: Borrow<S::Vector<2>>,
        {
            unimplemented!()
        }

        /// Not ported either.
        fn identity_params() -> S::Vector<PARAMS> {
            unimplemented!()
        }
    }
}

pub mod distortions {
    pub mod affine {
        include!(concat!(env!("SENSOR_FILES"), "/distortions/affine.rs"));
    }
    pub mod brown_conrady {
        include!(concat!(env!("SENSOR_FILES"), "/distortions/brown_conrady.rs"));
    }
    pub mod enhanced_unified {
        include!(concat!(env!("SENSOR_FILES"), "/distortions/enhanced_unified.rs"));
    }
    pub mod kannala_brandt {
        include!(concat!(env!("SENSOR_FILES"), "/distortions/kannala_brandt.rs"));
    }
}

pub mod distortion_table {
    include!(concat!(env!("SENSOR_FILES"), "/distortion_table.rs"));
}
