//! Stands where the original has the crate `half` of a version with num-traits: Debian's half 1.6, which lacks them, wrapped. Each conversion from
//! and to f32 and f64, the comparisons and the constants are Debian's. Of ours are the sign bit's operations, the four of arithmetic by way of f32, and
//! the traits' names. What the original never calls has no code, and would panic.
use num_traits::{Float, Num, NumCast, One, ToPrimitive, Zero};
use std::num::FpCategory;
use std::ops::{Add, Div, Mul, Neg, Rem, Sub};

#[allow(non_camel_case_types)]
#[derive(Clone, Copy, Debug, PartialEq, PartialOrd)]
#[repr(transparent)]
pub struct f16(debian::f16);

const SIGN: u16 = 0x8000;

impl f16 {
    pub const MIN: f16 = f16(debian::f16::MIN);
    pub const MAX: f16 = f16(debian::f16::MAX);

    #[inline]
    pub fn from_bits(bits: u16) -> Self {
        f16(debian::f16::from_bits(bits))
    }
    #[inline]
    pub fn to_bits(self) -> u16 {
        self.0.to_bits()
    }
    #[inline]
    pub fn from_f32(x: f32) -> Self {
        f16(debian::f16::from_f32(x))
    }
    #[inline]
    pub fn from_f64(x: f64) -> Self {
        f16(debian::f16::from_f64(x))
    }
    #[inline]
    pub fn to_f32(self) -> f32 {
        self.0.to_f32()
    }
    #[inline]
    pub fn to_f64(self) -> f64 {
        self.0.to_f64()
    }
    #[inline]
    pub fn is_nan(self) -> bool {
        self.0.is_nan()
    }
}

macro_rules! by_f32 {
    ($($trait:ident $method:ident $op:tt),*) => {
        $(impl $trait for f16 {
            type Output = f16;
            #[inline]
            fn $method(self, other: f16) -> f16 {
                f16::from_f32(self.to_f32() $op other.to_f32())
            }
        })*
    };
}

by_f32!(Add add +, Sub sub -, Mul mul *, Div div /, Rem rem %);

impl Neg for f16 {
    type Output = f16;
    #[inline]
    fn neg(self) -> f16 {
        f16::from_bits(self.to_bits() ^ SIGN)
    }
}

impl Zero for f16 {
    fn zero() -> Self {
        f16(debian::f16::ZERO)
    }
    fn is_zero(&self) -> bool {
        *self == f16::zero()
    }
}

impl One for f16 {
    #[inline]
    fn one() -> Self {
        f16(debian::f16::ONE)
    }
}

impl ToPrimitive for f16 {
    fn to_i64(&self) -> Option<i64> {
        f16::to_f32(*self).to_i64()
    }
    fn to_u64(&self) -> Option<u64> {
        f16::to_f32(*self).to_u64()
    }
    #[inline]
    fn to_f64(&self) -> Option<f64> {
        Some(f16::to_f64(*self))
    }
}

impl NumCast for f16 {
    #[inline]
    fn from<T: ToPrimitive>(x: T) -> Option<Self> {
        x.to_f64().map(f16::from_f64)
    }
}

impl Num for f16 {
    type FromStrRadixErr = ();
    fn from_str_radix(_: &str, _: u32) -> Result<Self, ()> {
        Err(())
    }
}

macro_rules! constants {
    ($($name:ident $value:ident),*) => {
        $(#[inline]
        fn $name() -> Self {
            f16(debian::f16::$value)
        })*
    };
}

macro_rules! questions {
    ($($name:ident $answer:ty),*) => {
        $(#[inline]
        fn $name(self) -> $answer {
            self.0.$name()
        })*
    };
}

macro_rules! uncalled {
    ($($name:ident($($x:ident: $t:ty),*) -> $r:ty),*) => {
        $(fn $name(self $(, $x: $t)*) -> $r {
            $(let _ = $x;)*
            unimplemented!("the original does not call it")
        })*
    };
}

impl Float for f16 {
    constants!(nan NAN, infinity INFINITY, neg_infinity NEG_INFINITY, neg_zero NEG_ZERO, min_value MIN, max_value MAX);
    constants!(min_positive_value MIN_POSITIVE, epsilon EPSILON);
    questions!(is_nan bool, is_infinite bool, is_finite bool, is_normal bool, classify FpCategory);
    questions!(is_sign_positive bool, is_sign_negative bool);

    #[inline]
    fn abs(self) -> Self {
        f16::from_bits(self.to_bits() & !SIGN)
    }

    uncalled!(floor() -> Self, ceil() -> Self, round() -> Self, trunc() -> Self, fract() -> Self, signum() -> Self);
    uncalled!(recip() -> Self, sqrt() -> Self, cbrt() -> Self, exp() -> Self, exp2() -> Self, exp_m1() -> Self);
    uncalled!(ln() -> Self, log2() -> Self, log10() -> Self, ln_1p() -> Self, log(base: Self) -> Self);
    uncalled!(sin() -> Self, cos() -> Self, tan() -> Self, asin() -> Self, acos() -> Self, atan() -> Self);
    uncalled!(sinh() -> Self, cosh() -> Self, tanh() -> Self, asinh() -> Self, acosh() -> Self, atanh() -> Self);
    uncalled!(mul_add(a: Self, b: Self) -> Self, powi(n: i32) -> Self, powf(n: Self) -> Self, hypot(other: Self) -> Self);
    uncalled!(max(other: Self) -> Self, min(other: Self) -> Self, abs_sub(other: Self) -> Self, atan2(other: Self) -> Self);
    uncalled!(sin_cos() -> (Self, Self), integer_decode() -> (u64, i16, i8));
}
