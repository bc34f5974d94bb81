// Calls on many blocks or vectors at once: the port's, and the same work by the original's helpers.
// They take as many blocks as all slices hold.

use del_geo_core::matn_col_major;
use del_geo_core::vecn::VecN;

use super::{ordinary, Inputs, Timed};
use crate::random::Random;

pub const BLOCKS: &[Timed] = &[
    Timed {
        name: "timed_product",
        dims: &[1, 2, 3],
        unit: "blocks",
        inputs: |dim, count, random| {
            Inputs::of(vec![blocks(dim, count, random), blocks(dim, count, random)])
        },
        units: |count| count,
        output: |dim, count| dim * dim * count,
        port: |dim, s, out| port::timed_product(dim as u32, &s.values[0], &s.values[1], out),
        rust: Some(|dim, s, out| match dim {
            1 => products::<1, 1>(&s.values[0], &s.values[1], out),
            2 => products::<2, 4>(&s.values[0], &s.values[1], out),
            _ => products::<3, 9>(&s.values[0], &s.values[1], out),
        }),
    },
    Timed {
        name: "timed_apply",
        dims: &[1, 2, 3],
        unit: "blocks",
        inputs: |dim, count, random| {
            Inputs::of(vec![
                blocks(dim, count, random),
                ordinary(dim * count, random),
            ])
        },
        units: |count| count,
        output: |dim, count| dim * count,
        port: |dim, s, out| port::timed_apply(dim as u32, &s.values[0], &s.values[1], out),
        rust: Some(|dim, s, out| match dim {
            1 => applications::<1, 1>(&s.values[0], &s.values[1], out),
            2 => applications::<2, 4>(&s.values[0], &s.values[1], out),
            _ => applications::<3, 9>(&s.values[0], &s.values[1], out),
        }),
    },
    Timed {
        name: "timed_inverse",
        dims: &[1, 2, 3],
        unit: "blocks",
        inputs: |dim, count, random| Inputs::of(vec![blocks(dim, count, random)]),
        units: |count| count,
        output: |dim, count| dim * dim * count,
        port: |dim, s, out| port::timed_inverse(dim as u32, &s.values[0], out),
        rust: Some(|dim, s, out| match dim {
            1 => inverses::<1, 1>(&s.values[0], out),
            2 => inverses::<2, 4>(&s.values[0], out),
            _ => inverses::<3, 9>(&s.values[0], out),
        }),
    },
    Timed {
        name: "timed_add",
        dims: &[1, 2, 3],
        unit: "vectors",
        inputs: |dim, count, random| {
            Inputs::of(vec![
                ordinary(dim * count, random),
                ordinary(dim * count, random),
            ])
        },
        units: |count| count,
        output: |dim, count| dim * count,
        port: |dim, s, out| port::timed_add(dim as u32, &s.values[0], &s.values[1], out),
        rust: Some(|dim, s, out| match dim {
            1 => sums::<1>(&s.values[0], &s.values[1], out),
            2 => sums::<2>(&s.values[0], &s.values[1], out),
            _ => sums::<3>(&s.values[0], &s.values[1], out),
        }),
    },
    Timed {
        name: "timed_add_block",
        dims: &[1, 2, 3],
        unit: "blocks",
        inputs: |dim, count, random| {
            Inputs::of(vec![
                ordinary(dim * dim * count, random),
                ordinary(dim * dim * count, random),
            ])
        },
        units: |count| count,
        output: |dim, count| dim * dim * count,
        port: |dim, s, out| port::timed_add_block(dim as u32, &s.values[0], &s.values[1], out),
        rust: Some(|dim, s, out| match dim {
            1 => sums::<1>(&s.values[0], &s.values[1], out),
            2 => sums::<4>(&s.values[0], &s.values[1], out),
            _ => sums::<9>(&s.values[0], &s.values[1], out),
        }),
    },
    Timed {
        name: "timed_subtract",
        dims: &[1, 2, 3],
        unit: "vectors",
        inputs: |dim, count, random| {
            Inputs::of(vec![
                ordinary(dim * count, random),
                ordinary(dim * count, random),
            ])
        },
        units: |count| count,
        output: |dim, count| dim * count,
        port: |dim, s, out| port::timed_subtract(dim as u32, &s.values[0], &s.values[1], out),
        rust: Some(|dim, s, out| match dim {
            1 => differences::<1>(&s.values[0], &s.values[1], out),
            2 => differences::<2>(&s.values[0], &s.values[1], out),
            _ => differences::<3>(&s.values[0], &s.values[1], out),
        }),
    },
    Timed {
        name: "timed_subtract_block",
        dims: &[1, 2, 3],
        unit: "blocks",
        inputs: |dim, count, random| {
            Inputs::of(vec![
                ordinary(dim * dim * count, random),
                ordinary(dim * dim * count, random),
            ])
        },
        units: |count| count,
        output: |dim, count| dim * dim * count,
        port: |dim, s, out| port::timed_subtract_block(dim as u32, &s.values[0], &s.values[1], out),
        rust: Some(|dim, s, out| match dim {
            1 => differences::<1>(&s.values[0], &s.values[1], out),
            2 => differences::<4>(&s.values[0], &s.values[1], out),
            _ => differences::<9>(&s.values[0], &s.values[1], out),
        }),
    },
    Timed {
        name: "timed_scale",
        dims: &[1, 2, 3],
        unit: "vectors",
        inputs: |dim, count, random| Inputs::of(vec![ordinary(dim * count, random)]),
        units: |count| count,
        output: |dim, count| dim * count,
        port: |dim, s, out| port::timed_scale(dim as u32, &s.values[0], FACTOR, out),
        rust: Some(|dim, s, out| match dim {
            1 => scalings::<1>(&s.values[0], out),
            2 => scalings::<2>(&s.values[0], out),
            _ => scalings::<3>(&s.values[0], out),
        }),
    },
    Timed {
        name: "timed_square_root",
        dims: &[1],
        unit: "values",
        inputs: |_, count, random| Inputs::of(vec![positive(count, random)]),
        units: |count| count,
        output: |_, count| count,
        port: |_, s, out| port::timed_square_root(&s.values[0], out),
        rust: Some(|_, s, out| roots(&s.values[0], out)),
    },
];

fn positive(count: usize, random: &mut Random) -> Vec<f64> {
    let values = ordinary(count, random).into_iter();
    values.map(f64::abs).collect()
}

/// Blocks with a strong diagonal, as a plate's are: none is singular.
fn blocks(dim: usize, count: usize, random: &mut Random) -> Vec<f64> {
    let mut values = ordinary(dim * dim * count, random);
    for block in values.chunks_exact_mut(dim * dim) {
        for i in 0..dim {
            block[i + dim * i] = block[i + dim * i].abs() + 40.0;
        }
    }
    values
}

fn products<const N: usize, const NN: usize>(a: &[f64], b: &[f64], out: &mut [f64]) {
    let (a, b) = (a.as_chunks::<NN>().0, b.as_chunks::<NN>().0);
    let out = out.as_chunks_mut::<NN>().0;
    for ((a, b), out) in a.iter().zip(b).zip(out) {
        *out = matn_col_major::mult_mat_col_major::<f64, N, NN>(a, b);
    }
}

fn applications<const N: usize, const NN: usize>(a: &[f64], x: &[f64], out: &mut [f64]) {
    let (a, x) = (a.as_chunks::<NN>().0, x.as_chunks::<N>().0);
    let out = out.as_chunks_mut::<N>().0;
    for ((a, x), out) in a.iter().zip(x).zip(out) {
        *out = matn_col_major::mult_vec::<f64, N, NN>(a, x);
    }
}

fn inverses<const N: usize, const NN: usize>(a: &[f64], out: &mut [f64]) {
    let (a, out) = (a.as_chunks::<NN>().0, out.as_chunks_mut::<NN>().0);
    for (a, out) in a.iter().zip(out) {
        // A refused block comes back as it was given.
        *out = matn_col_major::try_inverse::<f64, N, NN>(a).unwrap_or(*a);
    }
}

/// What vectors are scaled by: a number that rounds almost every product.
const FACTOR: f64 = -0.7;

fn sums<const M: usize>(u: &[f64], v: &[f64], out: &mut [f64]) {
    let (u, v) = (u.as_chunks::<M>().0, v.as_chunks::<M>().0);
    for ((u, v), out) in u.iter().zip(v).zip(out.as_chunks_mut::<M>().0) {
        *out = u.add(v);
    }
}

fn differences<const M: usize>(u: &[f64], v: &[f64], out: &mut [f64]) {
    let (u, v) = (u.as_chunks::<M>().0, v.as_chunks::<M>().0);
    for ((u, v), out) in u.iter().zip(v).zip(out.as_chunks_mut::<M>().0) {
        *out = u.sub(v);
    }
}

fn scalings<const M: usize>(v: &[f64], out: &mut [f64]) {
    for (v, out) in v.as_chunks::<M>().0.iter().zip(out.as_chunks_mut::<M>().0) {
        *out = v.scale(FACTOR);
    }
}

fn roots(x: &[f64], out: &mut [f64]) {
    for (x, out) in x.iter().zip(out) {
        *out = x.sqrt();
    }
}
