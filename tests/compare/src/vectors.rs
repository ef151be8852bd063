//! `contains`, arrays of three intervals, and a face's plane.
use crate::bits::all;
use crate::numbers::{ends, interval, told, MANY};
use crate::report::Report;
use crate::Scale;
use gen::jobs::tolerances;
use gen::{leaves as ask, Random};
use oracle::leaf::{self, Box3};
use oracle::Interval;
use port::vectors::{self as ours, Boxes};

fn boxed(b: &ours::Box3) -> Box3 {
    [0, 1, 2].map(|i| interval(&b[i]))
}

/// The six ends.
fn flat(b: Box3) -> [u64; 6] {
    let e = b.map(ends);
    all(std::array::from_fn(|i| e[i / 2][i % 2]))
}

fn one(i: Interval) -> Option<[u64; 2]> {
    Some(all(ends(i)))
}

pub fn compare(report: &mut Report, seed: u64, scale: Scale) {
    held(report, seed, scale);
    let mut random = Random::new(seed + 1);
    let mut two = || -> Vec<[ours::Box3; 2]> {
        let pair = |r: &mut Random| [ask::interval3(r), ask::interval3(r)];
        (0..scale.of(MANY)).map(|_| pair(&mut random)).collect()
    };
    let mut out = Boxes::new();
    report.ask(
        "dot",
        two(),
        |[a, b]| ours::alone(out.dot(a, b)).map(all),
        |[a, b]| one(leaf::dot(boxed(a), boxed(b))),
    );
    report.ask(
        "dot_from_zero",
        two(),
        |[a, b]| ours::alone(out.dot_from_zero(a, b)).map(all),
        |[a, b]| one(leaf::dot_from_zero(boxed(a), boxed(b))),
    );
    report.ask(
        "difference",
        two(),
        |[a, b]| all(out.difference(a, b)),
        |[a, b]| flat(leaf::box_difference(boxed(a), boxed(b))),
    );
    report.ask(
        "cross",
        two(),
        |[a, b]| all(out.cross(a, b)),
        |[a, b]| flat(leaf::cross(boxed(a), boxed(b))),
    );
    let mut random = Random::new(seed + 2);
    let given = two().into_iter().map(|p| (p, ask::interval(&mut random)));
    report.ask(
        "residual",
        given,
        |([a, b], t)| all(out.residual(a, b, *t)),
        |([a, b], t)| flat(leaf::residual(boxed(a), boxed(b), interval(t))),
    );
    let corners = (0..scale.of(MANY)).map(|_| {
        let t = tolerances(&mut random);
        (t, ask::corners(&mut random, &t))
    });
    report.ask(
        "face_plane",
        corners,
        |(t, c)| {
            let (number, plane) = ours::face_plane(c, t.linear);
            (number, all(plane))
        },
        |(t, c)| told(leaf::face_plane(t, c)),
    );
}

/// An interval, and an end of it, a neighbour of one, or any number.
fn held(report: &mut Report, seed: u64, scale: Scale) {
    let mut random = Random::new(seed);
    let given = (0..scale.of(MANY)).map(|_| {
        let a = ask::interval(&mut random);
        let x = match random.below(4) {
            0 => random.pick(&a),
            1 => -random.pick(&a),
            2 => {
                let x = random.pick(&a);
                ask::stepped(&mut random, x, 2)
            }
            _ => ask::float(&mut random),
        };
        (a, x)
    });
    report.ask(
        "contains",
        given,
        |(a, x)| ours::contains(*a, *x),
        |(a, x)| interval(a).contains(*x),
    );
}
