// A stand-in for the crate num_traits: exactly what the original's five files use, for f32 and f64.
// Written for this comparison from how those files use it; no text of that crate is here.

use std::ops::{Add, Div, Mul, Neg, Sub};

pub trait Zero: Sized + Add<Output = Self> {
    fn zero() -> Self;
}

pub trait One: Sized + Mul<Output = Self> {
    fn one() -> Self;
}

pub trait Float:
    Copy + PartialOrd + Zero + One + Sub<Output = Self> + Div<Output = Self> + Neg<Output = Self>
{
    /// The gap from 1 to the next number: 2^-52 for f64.
    fn epsilon() -> Self;

    /// The nearest number to the exact root.
    fn sqrt(self) -> Self;
}

pub trait AsPrimitive<T: Copy + 'static>: Copy + 'static {
    fn as_(self) -> T;
}

macro_rules! float {
    ($float:ident) => {
        impl Zero for $float {
            #[inline]
            fn zero() -> Self {
                0.0
            }
        }

        impl One for $float {
            #[inline]
            fn one() -> Self {
                1.0
            }
        }

        impl Float for $float {
            #[inline]
            fn epsilon() -> Self {
                $float::EPSILON
            }

            #[inline]
            fn sqrt(self) -> Self {
                $float::sqrt(self)
            }
        }
    };
}

float!(f32);
float!(f64);

macro_rules! as_primitive {
    ($from:ident, $to:ident) => {
        impl AsPrimitive<$to> for $from {
            #[inline]
            fn as_(self) -> $to {
                self as $to
            }
        }
    };
}

as_primitive!(usize, f32);
as_primitive!(usize, f64);
as_primitive!(f32, f32);
as_primitive!(f32, f64);
as_primitive!(f64, f32);
as_primitive!(f64, f64);
