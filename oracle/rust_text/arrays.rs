// Vectors and matrices of any scalar. Sums go from the first term on, and nothing is added to a sum of none.
use crate::scalar::{Angles, IsScalar, Mask, Num};
use std::fmt::Debug;
use std::marker::PhantomData;
use std::ops::{Add, Deref, DerefMut, Index, Mul, Sub};

pub trait IsVector<S: IsScalar<BATCH, DM, DN>, const N: usize, const BATCH: usize, const DM: usize, const DN: usize>:
    Copy + Debug + Sub<Output = Self>
{
    fn from_array(entries: [S; N]) -> Self;
    fn from_f64_array(entries: [f64; N]) -> Self;
    fn zeros() -> Self;
    fn elem(&self, i: usize) -> S;
    fn elem_mut(&mut self, i: usize) -> &mut S;
    fn get_fixed_subvec<const R: usize>(&self, start: usize) -> S::Vector<R>;
    fn squared_norm(&self) -> S;
    fn norm(&self) -> S;
    fn select(self, mask: &S::Mask, other: Self) -> Self;
}

pub trait IsMatrix<
    S: IsScalar<BATCH, DM, DN>,
    const R: usize,
    const C: usize,
    const BATCH: usize,
    const DM: usize,
    const DN: usize,
>: Copy + Debug
{
    fn from_array2(rows: [[S; C]; R]) -> Self;
    fn scaled(&self, factor: S) -> Self;
    fn select(self, mask: &S::Mask, other: Self) -> Self;
}

#[derive(Clone, Copy, Debug)]
#[repr(transparent)]
pub struct SVector<T, const N: usize>(pub [T; N]);

/// `.x` and `.y` of a vector of two.
#[repr(C)]
pub struct Xy<T> {
    pub x: T,
    pub y: T,
}

impl<T> Deref for SVector<T, 2> {
    type Target = Xy<T>;
    fn deref(&self) -> &Xy<T> {
        // Both are two values of T, one behind the other.
        unsafe { &*(self as *const Self as *const Xy<T>) }
    }
}

impl<T> DerefMut for SVector<T, 2> {
    fn deref_mut(&mut self) -> &mut Xy<T> {
        unsafe { &mut *(self as *mut Self as *mut Xy<T>) }
    }
}

impl<T> SVector<T, 2> {
    pub fn new(x: T, y: T) -> Self {
        SVector([x, y])
    }
}

/// A number of another width: the Rust's cast, to nearest, ties to even.
pub trait Cast<T> {
    fn cast(from: T) -> Self;
}

impl Cast<f64> for f32 {
    fn cast(from: f64) -> f32 {
        from as f32
    }
}

impl<T: Copy, const N: usize> SVector<T, N> {
    pub fn cast<U: Cast<T>>(self) -> SVector<U, N> {
        SVector(self.0.map(U::cast))
    }
}

impl<T: Default + Copy, const N: usize> SVector<T, N> {
    pub fn zeros() -> Self {
        SVector([T::default(); N])
    }
}

impl<T, const N: usize> Index<usize> for SVector<T, N> {
    type Output = T;
    fn index(&self, i: usize) -> &T {
        &self.0[i]
    }
}

impl<T: Copy + Add<Output = T>, const N: usize> Add for SVector<T, N> {
    type Output = Self;
    fn add(self, other: Self) -> Self {
        SVector(std::array::from_fn(|i| self.0[i] + other.0[i]))
    }
}

impl<T: Copy + Sub<Output = T>, const N: usize> Sub for SVector<T, N> {
    type Output = Self;
    fn sub(self, other: Self) -> Self {
        SVector(std::array::from_fn(|i| self.0[i] - other.0[i]))
    }
}

impl<T: Copy + Sub<Output = T>, const N: usize> Sub<SVector<T, N>> for &SVector<T, N> {
    type Output = SVector<T, N>;
    fn sub(self, other: SVector<T, N>) -> SVector<T, N> {
        *self - other
    }
}

/// a·c + b·d + ..., each product rounding once, added from the left.
fn products<A: Angles, const N: usize>(a: &[Num<A>; N], b: &[Num<A>; N]) -> Num<A> {
    let mut sum = a[0] * b[0];
    for i in 1..N {
        sum = sum + a[i] * b[i];
    }
    sum
}

impl<A: Angles, const N: usize> IsVector<Num<A>, N, 1, 0, 0> for SVector<Num<A>, N> {
    fn from_array(entries: [Num<A>; N]) -> Self {
        SVector(entries)
    }
    fn from_f64_array(entries: [f64; N]) -> Self {
        SVector(entries.map(Num::of))
    }
    fn zeros() -> Self {
        SVector([Num::of(0.0); N])
    }
    fn elem(&self, i: usize) -> Num<A> {
        self.0[i]
    }
    fn elem_mut(&mut self, i: usize) -> &mut Num<A> {
        if i == 0 {
            A::updated();
        }
        &mut self.0[i]
    }
    fn get_fixed_subvec<const R: usize>(&self, start: usize) -> SVector<Num<A>, R> {
        SVector(std::array::from_fn(|i| self.0[start + i]))
    }
    fn squared_norm(&self) -> Num<A> {
        products(&self.0, &self.0)
    }
    fn norm(&self) -> Num<A> {
        self.squared_norm().sqrt()
    }
    fn select(self, mask: &Mask<A>, other: Self) -> Self {
        A::selected(mask.0);
        if mask.0 {
            self
        } else {
            other
        }
    }
}

#[derive(Clone, Copy, Debug)]
pub struct SMatrix<T, const R: usize, const C: usize>(pub [[T; C]; R]);

impl<A: Angles, const R: usize, const C: usize> IsMatrix<Num<A>, R, C, 1, 0, 0> for SMatrix<Num<A>, R, C> {
    fn from_array2(rows: [[Num<A>; C]; R]) -> Self {
        SMatrix(rows)
    }
    fn scaled(&self, factor: Num<A>) -> Self {
        A::scaled(factor.0);
        SMatrix(self.0.map(|row| row.map(|entry| entry * factor)))
    }
    fn select(self, mask: &Mask<A>, other: Self) -> Self {
        if mask.0 {
            self
        } else {
            other
        }
    }
}

impl<A: Angles, const R: usize, const C: usize> Mul<SVector<Num<A>, C>> for SMatrix<Num<A>, R, C> {
    type Output = SVector<Num<A>, R>;
    fn mul(self, vector: SVector<Num<A>, C>) -> SVector<Num<A>, R> {
        SVector(self.0.map(|row| products(&row, &vector.0)))
    }
}

/// Named by a function that isn't ported; nobody makes one.
pub struct UnitVector3<S, const BATCH: usize, const DM: usize, const DN: usize>(PhantomData<S>);

impl<S: IsScalar<BATCH, DM, DN>, const BATCH: usize, const DM: usize, const DN: usize> UnitVector3<S, BATCH, DM, DN> {
    pub fn from_vector_and_normalize(_: &S::Vector<3>) -> Self {
        unimplemented!()
    }
}
