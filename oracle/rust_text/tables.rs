// What distortion_table.rs leans on: a box region, images of two f32 a pixel, and a camera that it can only ask.
use crate::linalg::VecF64;
use crate::SVector;

/// None until a point came. Among equal edges the first met stays.
#[derive(Clone, Copy, Debug)]
pub struct BoxRegion<const N: usize> {
    bounds: Option<(VecF64<N>, VecF64<N>)>,
}

impl<const N: usize> BoxRegion<N> {
    pub fn empty() -> Self {
        BoxRegion { bounds: None }
    }
    pub fn from_bounds(lower: VecF64<N>, upper: VecF64<N>) -> Self {
        BoxRegion { bounds: Some((lower, upper)) }
    }
    pub fn extend(&mut self, point: VecF64<N>) {
        let (lower, upper) = self.bounds.get_or_insert((point, point));
        for i in 0..N {
            if point.0[i] < lower.0[i] {
                lower.0[i] = point.0[i];
            }
            if upper.0[i] < point.0[i] {
                upper.0[i] = point.0[i];
            }
        }
    }
    pub fn try_lower(&self) -> Option<VecF64<N>> {
        self.bounds.map(|(lower, _)| lower)
    }
    pub fn try_upper(&self) -> Option<VecF64<N>> {
        self.bounds.map(|(_, upper)| upper)
    }
    /// Half the rounded sum of the edges.
    pub fn try_center(&self) -> Option<VecF64<N>> {
        self.bounds.map(|(lower, upper)| SVector((lower + upper).0.map(|sum| sum / 2.0)))
    }
    pub fn range(&self) -> VecF64<N> {
        self.bounds.map_or(SVector::zeros(), |(lower, upper)| upper - lower)
    }
}

#[derive(Clone, Copy, Debug)]
pub struct ImageSize {
    pub width: usize,
    pub height: usize,
}

#[derive(Clone, Debug)]
pub struct MutImage2F32 {
    size: ImageSize,
    pixels: Vec<SVector<f32, 2>>,
}

impl MutImage2F32 {
    pub fn from_image_size_and_val(size: ImageSize, val: SVector<f32, 2>) -> Self {
        MutImage2F32 { size, pixels: vec![val; size.width * size.height] }
    }
    pub fn from_image_size(size: ImageSize) -> Self {
        Self::from_image_size_and_val(size, SVector::zeros())
    }
    pub fn image_size(&self) -> ImageSize {
        self.size
    }
    pub fn mut_pixel(&mut self, u: usize, v: usize) -> &mut SVector<f32, 2> {
        &mut self.pixels[v * self.size.width + u]
    }
    pub fn pixel(&self, u: usize, v: usize) -> SVector<f32, 2> {
        self.pixels[v * self.size.width + u]
    }
}

/// The Rust shares an image by counting its owners; here nobody shares one.
pub type ArcImage2F32 = MutImage2F32;

/// Of `lookup`, which isn't ported.
pub fn interpolate_xf32(_: &ArcImage2F32, _: SVector<f32, 2>) -> SVector<f32, 2> {
    unimplemented!()
}

pub trait Lens {
    fn distort(&self, point: [f64; 2]) -> [f64; 2];
    fn undistort(&self, pixel: [f64; 2]) -> [f64; 2];
}

/// A camera whose kind is chosen when the program runs.
pub struct DynCameraF64 {
    pub lens: Box<dyn Lens>,
    pub size: ImageSize,
}

impl DynCameraF64 {
    pub fn image_size(&self) -> ImageSize {
        self.size
    }
    pub fn distort(&self, point: VecF64<2>) -> VecF64<2> {
        SVector(self.lens.distort(point.0))
    }
    pub fn undistort(&self, pixel: VecF64<2>) -> VecF64<2> {
        SVector(self.lens.undistort(pixel.0))
    }
}
