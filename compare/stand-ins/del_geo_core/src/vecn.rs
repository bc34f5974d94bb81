// Vectors of N values: sums, scaling and the dot product of one row.
// From document 01, "Small blocks": a sum starts at +0 and adds its terms in rising index.

use num_traits::Float;

/// One running sum from +0, in rising index.
#[inline]
pub fn dot<T: Float, const N: usize>(a: &[T; N], b: &[T; N]) -> T {
    let mut sum = T::zero();
    for i in 0..N {
        sum = sum + a[i] * b[i];
    }
    sum
}

#[inline]
pub fn scale_in_place<T: Float, const N: usize>(v: &mut [T; N], s: T) {
    for value in v.iter_mut() {
        *value = *value * s;
    }
}

#[inline]
pub fn add_in_place<T: Float, const N: usize>(u: &mut [T; N], v: &[T; N]) {
    for (a, &b) in u.iter_mut().zip(v) {
        *a = *a + b;
    }
}

#[inline]
fn subtract_in_place<T: Float, const N: usize>(u: &mut [T; N], v: &[T; N]) {
    for (a, &b) in u.iter_mut().zip(v) {
        *a = *a - b;
    }
}

/// The same as methods of an array.
pub trait VecN<T, const N: usize>: Sized {
    fn add_in_place(&mut self, other: &Self);
    fn sub_in_place(&mut self, other: &Self);
    fn scale_in_place(&mut self, s: T);
    fn add(&self, other: &Self) -> Self;
    fn sub(&self, other: &Self) -> Self;
    fn scale(&self, s: T) -> Self;
}

impl<T: Float, const N: usize> VecN<T, N> for [T; N] {
    #[inline]
    fn add_in_place(&mut self, other: &Self) {
        add_in_place(self, other);
    }

    #[inline]
    fn sub_in_place(&mut self, other: &Self) {
        subtract_in_place(self, other);
    }

    #[inline]
    fn scale_in_place(&mut self, s: T) {
        scale_in_place(self, s);
    }

    #[inline]
    fn add(&self, other: &Self) -> Self {
        let mut sum = *self;
        add_in_place(&mut sum, other);
        sum
    }

    #[inline]
    fn sub(&self, other: &Self) -> Self {
        let mut difference = *self;
        subtract_in_place(&mut difference, other);
        difference
    }

    #[inline]
    fn scale(&self, s: T) -> Self {
        let mut scaled = *self;
        scale_in_place(&mut scaled, s);
        scaled
    }
}
