// Blocks of N*N values, element (r,c) at r + N*c: product, block times vector, sums and the inverse.
// From document 01, "Small blocks": sums from +0 in rising index, the inverse with s = 1/d.

use num_traits::Float;

/// Value r sums a(r,q) * x(q).
#[inline]
pub fn mult_vec<T: Float, const N: usize, const NN: usize>(a: &[T; NN], x: &[T; N]) -> [T; N] {
    const { assert!(NN == N * N) };
    let mut out = [T::zero(); N];
    for r in 0..N {
        let mut sum = T::zero();
        for q in 0..N {
            sum = sum + a[r + N * q] * x[q];
        }
        out[r] = sum;
    }
    out
}

/// Element (r,c) sums a(r,q) * b(q,c).
#[inline]
pub fn mult_mat_col_major<T: Float, const N: usize, const NN: usize>(
    a: &[T; NN],
    b: &[T; NN],
) -> [T; NN] {
    const { assert!(NN == N * N) };
    let mut out = [T::zero(); NN];
    for c in 0..N {
        for r in 0..N {
            let mut sum = T::zero();
            for q in 0..N {
                sum = sum + a[r + N * q] * b[q + N * c];
            }
            out[r + N * c] = sum;
        }
    }
    out
}

#[inline]
pub fn add_in_place<T: Float, const NN: usize>(a: &mut [T; NN], b: &[T; NN]) {
    for (x, &y) in a.iter_mut().zip(b) {
        *x = *x + y;
    }
}

#[inline]
pub fn sub_in_place<T: Float, const NN: usize>(a: &mut [T; NN], b: &[T; NN]) {
    for (x, &y) in a.iter_mut().zip(b) {
        *x = *x - y;
    }
}

/// None exactly if the determinant compares equal to zero; a NaN does not.
#[inline]
pub fn try_inverse<T: Float, const N: usize, const NN: usize>(a: &[T; NN]) -> Option<[T; NN]> {
    const { assert!(NN == N * N && 1 <= N && N <= 3) };
    match N {
        1 => inverse_1(a),
        2 => inverse_2(a),
        _ => inverse_3(a),
    }
}

/// s = 1/d, unless d compares equal to zero.
#[inline]
fn one_over<T: Float>(d: T) -> Option<T> {
    if d == T::zero() {
        None
    } else {
        Some(T::one() / d)
    }
}

#[inline]
fn inverse_1<T: Float, const NN: usize>(a: &[T; NN]) -> Option<[T; NN]> {
    let s = one_over(a[0])?;
    Some([s; NN])
}

#[inline]
fn inverse_2<T: Float, const NN: usize>(a: &[T; NN]) -> Option<[T; NN]> {
    let at = |r: usize, c: usize| a[r + 2 * c];
    let d = at(0, 0) * at(1, 1) - at(0, 1) * at(1, 0);
    let s = one_over(d)?;
    let mut out = [T::zero(); NN];
    out[0] = s * at(1, 1);
    out[2] = s * -at(0, 1);
    out[1] = s * -at(1, 0);
    out[3] = s * at(0, 0);
    Some(out)
}

#[inline]
fn inverse_3<T: Float, const NN: usize>(a: &[T; NN]) -> Option<[T; NN]> {
    let at = |r: usize, c: usize| a[r % 3 + 3 * (c % 3)];
    let k = |r: usize, c: usize| {
        at(c + 1, r + 1) * at(c + 2, r + 2) - at(c + 1, r + 2) * at(c + 2, r + 1)
    };
    let d = (at(0, 0) * k(0, 0) + at(0, 1) * k(1, 0)) + at(0, 2) * k(2, 0);
    let s = one_over(d)?;
    let mut out = [T::zero(); NN];
    for c in 0..3 {
        for r in 0..3 {
            out[r + 3 * c] = s * k(r, c);
        }
    }
    Some(out)
}
