// The four operations, asked by number: 0 distort, 1 undistort, 2 dx_distort_x, 3 dx_distort_params. A model's number is its
// place in the tables here, which with a line in `ask` are all that another model needs. bc12 is no text of the Rust's.
use crate::distortions::affine::AffineDistortionImpl;
use crate::distortions::brown_conrady::BrownConradyDistortionImpl;
use crate::distortions::enhanced_unified::EnhancedUnifiedDistortionImpl;
use crate::distortions::kannala_brandt::KannalaBrandtDistortionImpl;
use crate::traits::IsCameraDistortionImpl;
use crate::{thin_prism, Angles, Num, SMatrix, SVector};

/// What each model is called in a camera file, how many parameters it has, and how many updates a search of it makes at most.
pub const NAMES: [&str; 5] = ["affine", "eucm", "kb", "bc", "bc12"];
pub const COUNTS: [usize; 5] = [4, 6, 8, 12, 16];
pub const LIMITS: [u64; 5] = [0, 0, 20, 50, 50];

/// The least number that is no model's, and the most parameters that one has.
pub const NO_MODEL: usize = NAMES.len();
pub const MOST_PARAMS: usize = 16;

/// A model takes the first of them.
pub type Params = [f64; MOST_PARAMS];

/// The platform's arctangent and tangent: the text as it stands.
#[derive(Clone, Copy, Debug)]
pub struct Platform;

impl Angles for Platform {
    fn arctangent(x: f64) -> f64 {
        x.atan()
    }
    fn arctangent_of(y: f64, x: f64) -> f64 {
        y.atan2(x)
    }
    fn tangent(theta: f64) -> f64 {
        theta.tan()
    }
}

/// Row by row with `columns` in each row; a point or pixel is one column.
#[derive(Clone, Copy)]
pub struct Answer {
    pub numbers: [f64; 32],
    pub columns: usize,
}

impl Answer {
    pub fn used(&self) -> &[f64] {
        &self.numbers[..2 * self.columns]
    }
}

fn pair<A>(v: SVector<Num<A>, 2>) -> Answer {
    rows(SMatrix(v.0.map(|entry| [entry])))
}

fn rows<A, const C: usize>(m: SMatrix<Num<A>, 2, C>) -> Answer {
    let mut numbers = [0.0; 32];
    for (place, entry) in numbers.iter_mut().zip(m.0.iter().flatten()) {
        *place = entry.0;
    }
    Answer { numbers, columns: C }
}

/// One operation of the model D, which has N parameters, the last K of them its own.
pub fn ask_model<A: Angles, D: IsCameraDistortionImpl<Num<A>, K, N, 1, 0, 0>, const K: usize, const N: usize>(
    operation: usize,
    params: &Params,
    at: [f64; 2],
) -> Answer {
    let camera = SVector::<Num<A>, N>(std::array::from_fn(|i| Num::of(params[i])));
    let at = SVector(at.map(Num::of));
    match operation {
        0 => pair(D::distort(camera, at)),
        1 => pair(D::undistort(camera, at)),
        2 => rows(D::dx_distort_x(camera, at)),
        _ => rows(D::dx_distort_params(camera, at)),
    }
}

pub fn ask<A: Angles>(model: usize, operation: usize, params: &Params, at: [f64; 2]) -> Answer {
    match model {
        0 => ask_model::<A, AffineDistortionImpl<Num<A>, 1, 0, 0>, 0, 4>(operation, params, at),
        1 => ask_model::<A, EnhancedUnifiedDistortionImpl<Num<A>, 1, 0, 0>, 2, 6>(operation, params, at),
        2 => ask_model::<A, KannalaBrandtDistortionImpl<Num<A>, 1, 0, 0>, 4, 8>(operation, params, at),
        3 => ask_model::<A, BrownConradyDistortionImpl<Num<A>, 1, 0, 0>, 8, 12>(operation, params, at),
        _ => thin_prism::ask::<A>(operation, params, at),
    }
}
