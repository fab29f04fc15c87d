// One f64 as the Rust's scalar, and the answer of a comparison as its mask.
use crate::arrays::{IsMatrix, IsVector, SMatrix, SVector};
use std::fmt::Debug;
use std::marker::PhantomData;
use std::ops::{Add, Div, Mul, Neg, Sub, SubAssign};

/// Where arctangent and tangent come from, and who is told what the Rust's answers don't say: how many Newton updates
/// there were and how the tests between and after them came out. Whoever doesn't want to know pays nothing.
pub trait Angles: Copy + Debug + 'static {
    fn arctangent(x: f64) -> f64;
    /// The arctangent of y over x. The five files ask it with x = 1 alone.
    fn arctangent_of(y: f64, x: f64) -> f64 {
        assert!(x == 1.0);
        Self::arctangent(y)
    }
    fn tangent(theta: f64) -> f64;
    /// A Newton update was done: `-=` on a scalar in kb, a write to entry 0 of a vector in bc, and nowhere else.
    fn updated() {}
    /// A mask was asked for its truth.
    fn judged(_truth: bool) {}
    /// One of two vectors was selected, the first if true: kb's answer near the axis, where its loop doesn't count.
    fn selected(_first: bool) {}
    /// A matrix was scaled: bc's inverse, by 1 over its determinant, and nothing else.
    fn scaled(_factor: f64) {}
    /// Something was divided by this.
    fn divided(_by: f64) {}
}

pub trait IsMask {
    fn all_true() -> Self;
    fn all(&self) -> bool;
    fn any(&self) -> bool;
}

pub trait IsScalar<const BATCH: usize, const DM: usize, const DN: usize>:
    Copy + Debug + Add<Output = Self> + Sub<Output = Self> + Mul<Output = Self> + Div<Output = Self> + Neg<Output = Self> + SubAssign
{
    type Mask: IsMask;
    type RealScalar: IsScalar<BATCH, 0, 0>;
    type Vector<const N: usize>: IsVector<Self, N, BATCH, DM, DN>;
    type Matrix<const R: usize, const C: usize>: IsMatrix<Self, R, C, BATCH, DM, DN>
        + Mul<Self::Vector<C>, Output = Self::Vector<R>>;

    fn from_f64(x: f64) -> Self;
    fn real_part(&self) -> Self::RealScalar;
    fn sqrt(self) -> Self;
    fn abs(self) -> Self;
    fn atan(self) -> Self;
    fn atan2(self, x: Self) -> Self;
    fn tan(self) -> Self;
    fn less_equal(&self, other: &Self) -> Self::Mask;
    /// self where the mask is true, else other.
    fn select(self, mask: &Self::Mask, other: Self) -> Self;

    fn zeros() -> Self {
        Self::from_f64(0.0)
    }
    fn zero() -> Self {
        Self::from_f64(0.0)
    }
    fn ones() -> Self {
        Self::from_f64(1.0)
    }
}

#[derive(Clone, Copy, Debug)]
pub struct Num<A>(pub f64, PhantomData<A>);

impl<A> Num<A> {
    pub fn of(x: f64) -> Self {
        Num(x, PhantomData)
    }
}

#[derive(Clone, Copy)]
pub struct Mask<A>(pub bool, PhantomData<A>);

impl<A: Angles> IsMask for Mask<A> {
    fn all_true() -> Self {
        Mask(true, PhantomData)
    }
    fn all(&self) -> bool {
        A::judged(self.0);
        self.0
    }
    fn any(&self) -> bool {
        self.all()
    }
}

macro_rules! operator {
    ($trait:ident, $name:ident, $sign:tt) => {
        impl<A> $trait for Num<A> {
            type Output = Self;
            #[inline(always)]
            fn $name(self, other: Self) -> Self {
                Num::of(self.0 $sign other.0)
            }
        }
    };
}
operator!(Add, add, +);
operator!(Sub, sub, -);
operator!(Mul, mul, *);

impl<A: Angles> Div for Num<A> {
    type Output = Self;
    #[inline(always)]
    fn div(self, other: Self) -> Self {
        A::divided(other.0);
        Num::of(self.0 / other.0)
    }
}

impl<A> Neg for Num<A> {
    type Output = Self;
    fn neg(self) -> Self {
        Num::of(-self.0)
    }
}

impl<A: Angles> SubAssign for Num<A> {
    fn sub_assign(&mut self, other: Self) {
        A::updated();
        self.0 = self.0 - other.0;
    }
}

impl<A: Angles> IsScalar<1, 0, 0> for Num<A> {
    type Mask = Mask<A>;
    type RealScalar = Self;
    type Vector<const N: usize> = SVector<Self, N>;
    type Matrix<const R: usize, const C: usize> = SMatrix<Self, R, C>;

    fn from_f64(x: f64) -> Self {
        Num::of(x)
    }
    fn real_part(&self) -> Self {
        *self
    }
    fn sqrt(self) -> Self {
        Num::of(self.0.sqrt())
    }
    fn abs(self) -> Self {
        Num::of(self.0.abs())
    }
    fn atan(self) -> Self {
        Num::of(A::arctangent(self.0))
    }
    fn atan2(self, x: Self) -> Self {
        Num::of(A::arctangent_of(self.0, x.0))
    }
    fn tan(self) -> Self {
        Num::of(A::tangent(self.0))
    }
    fn less_equal(&self, other: &Self) -> Mask<A> {
        Mask(self.0 <= other.0, PhantomData)
    }
    fn select(self, mask: &Mask<A>, other: Self) -> Self {
        if mask.0 {
            self
        } else {
            other
        }
    }
}
