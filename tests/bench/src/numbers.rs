//! Interval add and mul against the same code in Rust and against std's steps, orient2d against a plain f64 evaluation, the root against the hardware's.
use crate::same;
use crate::timed::row;
use gen::{leaves, Random};
use oracle::Interval;
use port::leaves::{self as ours, Ends, OfTwo, ADD, MUL};
use std::hint::black_box;

const INPUTS: usize = 4096;

fn pairs(random: &mut Random) -> Vec<[[f64; 2]; 2]> {
    let interval = |r: &mut Random| {
        let x = r.signed() * 100.0;
        [x, x + r.unit()]
    };
    (0..INPUTS)
        .map(|_| [interval(random), interval(random)])
        .collect()
}

/// The oracle's interval, called as the port's is.
fn told(out: *mut f64, n: usize, r: Interval) {
    // SAFETY: the caller lends n numbers.
    let out = unsafe { std::slice::from_raw_parts_mut(out, n) };
    if out.len() >= 2 {
        out[0] = r.lo();
        out[1] = r.hi();
    }
}

#[inline(never)]
extern "C" fn std_add(al: f64, ah: f64, bl: f64, bh: f64, out: *mut f64, n: usize) {
    told(out, n, Interval::ends(al, ah) + Interval::ends(bl, bh));
}

#[inline(never)]
extern "C" fn std_mul(al: f64, ah: f64, bl: f64, bh: f64, out: *mut f64, n: usize) {
    told(out, n, Interval::ends(al, ah) * Interval::ends(bl, bh));
}

#[inline(never)]
fn plain_orient2d(a: [f64; 2], b: [f64; 2], c: [f64; 2]) -> f64 {
    (b[0] - a[0]) * (c[1] - a[1]) - (b[1] - a[1]) * (c[0] - a[0])
}

#[inline(never)]
fn hardware_root(x: f64) -> f64 {
    x.sqrt()
}

/// Add and mul of the port beside its own code in Rust, called in the same way, then beside the oracle's.
fn intervals(kind: &str, pairs: &[[[f64; 2]; 2]]) {
    let (mut out, mut beside) = (Ends::new(), Ends::new());
    let calls = [
        ("interval add", ADD, same::add as OfTwo),
        ("interval mul", MUL, same::mul as OfTwo),
        ("add / std's steps", ADD, std_add as OfTwo),
        ("mul / std's steps", MUL, std_mul as OfTwo),
    ];
    for (name, port, rust) in calls {
        row(
            &format!("{name}{kind}"),
            pairs,
            |[a, b]| out.of_two(black_box(port), a, b),
            |[a, b]| beside.of_two(black_box(rust), a, b),
            1.2,
        );
    }
}

pub fn bench() {
    let mut random = Random::new(1);
    let plain = pairs(&mut random);
    intervals("", &plain);
    let special: Vec<_> = (0..INPUTS)
        .map(|_| [leaves::interval(&mut random), leaves::interval(&mut random)])
        .collect();
    intervals(", special values", &special);
    let turns: Vec<[[f64; 2]; 3]> = (0..INPUTS)
        .map(|_| [(); 3].map(|()| [1.0 + random.unit(), 1.0 + random.unit()]))
        .collect();
    row(
        "orient2d / plain f64",
        &turns,
        |t| ours::orient2d(t[0], t[1], t[2]),
        |t| plain_orient2d(t[0], t[1], t[2]),
        20.0,
    );
    let roots: Vec<f64> = (0..INPUTS).map(|_| random.unit() * 1000.0).collect();
    row(
        "square root / hardware",
        &roots,
        ours::square_root,
        hardware_root,
        40.0,
    );
}
