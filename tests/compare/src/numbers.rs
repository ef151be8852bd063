//! Floats from the bits, square root, intervals, exact orientation, near, frames, side, mesh orientation.
use crate::bits::{all, bits};
use crate::report::Report;
use crate::Scale;
use gen::jobs::tolerances;
use gen::{leaves as ask, Random};
use oracle::leaf;
use oracle::{Interval, Sign, Tolerances};
use port::leaves::{self as ours, Ends};

/// The questions of one leaf.
pub const MANY: usize = 1_000_000;

pub fn sign_code(sign: Option<Sign>) -> u64 {
    match sign {
        Some(Sign::Zero) => 0,
        Some(Sign::Positive) => 1,
        Some(Sign::Negative) => 2,
        None => 3,
    }
}

pub fn ends(i: Interval) -> [f64; 2] {
    [i.lo(), i.hi()]
}

pub fn interval(a: &[f64; 2]) -> Interval {
    Interval::ends(a[0], a[1])
}

/// The bits that a NaN may show are one pattern; any other float keeps its own.
fn pattern(random: &mut Random) -> u64 {
    let x = ask::float(random);
    if random.coin() {
        random.bits()
    } else {
        x.to_bits()
    }
}

/// The questions on the two sides of the place where an answer changes.
const CHANGES: usize = 20_000;

pub fn compare(report: &mut Report, seed: u64, scale: Scale) {
    floats(report, seed, scale);
    intervals(report, seed + 1, scale);
    points(report, seed + 2, scale);
    frames(report, seed + 3, scale);
    turns(report, seed + 4, scale);
    changes(report, seed + 5, scale);
}

/// Near, side and mesh orientation where their answers change.
fn changes(report: &mut Report, seed: u64, scale: Scale) {
    let mut random = Random::new(seed);
    let mut each = || -> Vec<Tolerances> {
        (0..scale.of(CHANGES))
            .map(|_| tolerances(&mut random))
            .collect()
    };
    let [near, sides, turns] = [each(), each(), each()];
    let mut random = Random::new(seed + 10);
    let given = near.into_iter().flat_map(|t| {
        let pairs = ask::near_edge(&mut random, &t);
        pairs.map(|q| (t, q))
    });
    report.ask(
        "near, at the change",
        given,
        |(t, q)| ours::near(q[0], q[1], t.local),
        |(t, q)| leaf::near(t, &q[0], &q[1]).map_or_else(u64::from, u64::from),
    );
    let mut random = Random::new(seed + 11);
    let given = sides.into_iter().flat_map(|t| {
        let points = ask::side_edge(&mut random, &t);
        points.map(|(w, q)| (t, w, q))
    });
    report.ask(
        "side, at the change",
        given,
        |(t, w, q)| ours::side(w, q, t.local),
        |(t, w, q)| leaf::side(t, w, q).map_or_else(u64::from, |s| sign_code(Some(s))),
    );
    let mut random = Random::new(seed + 12);
    let given = turns.into_iter().flat_map(|t| {
        let corners = ask::shadows_edge(&mut random, &t);
        corners.map(|c| (t, c))
    });
    report.ask(
        "mesh orientation, change",
        given,
        |(t, c)| ours::orientation(&c.map(|s| [ends(s.x), ends(s.y)]), t.local),
        |(t, [a, b, c])| {
            leaf::orientation(t, a, b, c).map_or_else(u64::from, |s| sign_code(Some(s)))
        },
    );
}

fn floats(report: &mut Report, seed: u64, scale: Scale) {
    let mut random = Random::new(seed);
    let mut one =
        |n: usize| -> Vec<f64> { (0..scale.of(n)).map(|_| ask::float(&mut random)).collect() };
    report.ask(
        "next_up",
        one(MANY),
        |x| bits(ours::next_up(*x)),
        |x| bits(leaf::next_up(*x)),
    );
    report.ask(
        "next_down",
        one(MANY),
        |x| bits(ours::next_down(*x)),
        |x| bits(leaf::next_down(*x)),
    );
    report.ask("abs", one(MANY), |x| bits(ours::abs(*x)), |x| bits(x.abs()));
    report.ask(
        "is_finite",
        one(MANY),
        |x| ours::is_finite(*x),
        |x| x.is_finite(),
    );
    report.ask("bits_of", one(MANY), |x| ours::bits_of(*x), |x| bits(*x));
    report.ask(
        "square_root",
        one(MANY),
        |x| bits(ours::square_root(*x)),
        |x| bits(leaf::square_root(*x)),
    );
    let mut random = Random::new(seed + 10);
    let patterns: Vec<_> = (0..scale.of(MANY)).map(|_| pattern(&mut random)).collect();
    report.ask(
        "float_of",
        patterns,
        |b| bits(ours::float_of(*b)),
        |b| bits(f64::from_bits(*b)),
    );
    let mut two = || -> Vec<[f64; 2]> { (0..scale.of(MANY)).map(|_| pair(&mut random)).collect() };
    report.ask(
        "lesser",
        two(),
        |p| bits(ours::lesser(p[0], p[1])),
        |p| bits(leaf::lesser(p[0], p[1])),
    );
    report.ask(
        "greater",
        two(),
        |p| bits(ours::greater(p[0], p[1])),
        |p| bits(leaf::greater(p[0], p[1])),
    );
    let ordered: Vec<_> = (0..scale.of(MANY)).map(|_| ordered(&mut random)).collect();
    report.ask(
        "before",
        ordered,
        |p| ours::before(p[0], p[1]),
        |p| leaf::before(p[0], p[1]),
    );
}

/// Two numbers, often equal, opposite or neighbours.
fn pair(random: &mut Random) -> [f64; 2] {
    let x = ask::float(random);
    match random.below(4) {
        0 => [x, x],
        1 => [x, -x],
        2 => [x, ask::stepped(random, x, 2)],
        _ => [x, ask::float(random)],
    }
}

/// Two numbers that are no NaN.
fn ordered(random: &mut Random) -> [f64; 2] {
    loop {
        let p = pair(random);
        if !p[0].is_nan() && !p[1].is_nan() {
            return p;
        }
    }
}

fn intervals(report: &mut Report, seed: u64, scale: Scale) {
    let mut random = Random::new(seed);
    let mut one = || -> Vec<[f64; 2]> {
        (0..scale.of(MANY))
            .map(|_| ask::interval(&mut random))
            .collect()
    };
    let mut out = Ends::new();
    report.ask(
        "sqr",
        one(),
        |a| all(out.sqr(*a)),
        |a| all(ends(interval(a).sqr())),
    );
    report.ask(
        "sign",
        one(),
        |a| ours::sign(*a),
        |a| sign_code(interval(a).sign()),
    );
    report.ask(
        "holds_zero",
        one(),
        |a| ours::holds_zero(*a),
        |a| interval(a).contains(0.0),
    );
    report.ask(
        "reciprocal",
        one(),
        |a| out.reciprocal(*a).map(all),
        |a| leaf::reciprocal(interval(a)).ok().map(|i| all(ends(i))),
    );
    let mut random = Random::new(seed + 10);
    let mut two = || -> Vec<[[f64; 2]; 2]> {
        let pair = |r: &mut Random| [ask::interval(r), ask::interval(r)];
        (0..scale.of(MANY)).map(|_| pair(&mut random)).collect()
    };
    report.ask(
        "add",
        two(),
        |p| all(out.add(p[0], p[1])),
        |p| all(ends(interval(&p[0]) + interval(&p[1]))),
    );
    report.ask(
        "sub",
        two(),
        |p| all(out.sub(p[0], p[1])),
        |p| all(ends(interval(&p[0]) - interval(&p[1]))),
    );
    report.ask(
        "mul",
        two(),
        |p| all(out.mul(p[0], p[1])),
        |p| all(ends(interval(&p[0]) * interval(&p[1]))),
    );
    let few = two().into_iter().take(100);
    report.ask(
        "short slices left alone",
        few,
        |p| Ends::leaves_short_alone(p[0], p[1]),
        |_| true,
    );
}

fn points(report: &mut Report, seed: u64, scale: Scale) {
    let mut random = Random::new(seed);
    let turns: Vec<_> = (0..scale.of(MANY)).map(|_| turn(&mut random)).collect();
    report.ask(
        "orient2d",
        turns,
        |t| ours::orient2d(t[0], t[1], t[2]),
        |t| sign_code(leaf::orient2d(t[0], t[1], t[2])),
    );
    let vectors: Vec<_> = (0..scale.of(MANY))
        .map(|_| [(); 3].map(|()| ask::float(&mut random)))
        .collect();
    report.ask(
        "length",
        vectors,
        |v| bits(ours::length(*v)),
        |v| bits(length(v)),
    );
    let near: Vec<_> = (0..scale.of(MANY)).map(|_| near(&mut random)).collect();
    report.ask(
        "near",
        near,
        |(t, q)| ours::near(q[0], q[1], t.local),
        |(t, q)| leaf::near(t, &q[0], &q[1]).map_or_else(u64::from, u64::from),
    );
}

fn frames(report: &mut Report, seed: u64, scale: Scale) {
    let mut random = Random::new(seed);
    let given: Vec<_> = (0..scale.of(MANY))
        .map(|_| {
            let t = tolerances(&mut random);
            (t, ask::frame(&mut random, &t))
        })
        .collect();
    report.ask(
        "plane",
        given,
        |(t, [o, n, h])| {
            let (number, plane) = ours::plane(o, n, h, t.linear);
            (number, all(plane))
        },
        |(t, [o, n, h])| told(leaf::frame(t, o, n, h)),
    );
    let mut random = Random::new(seed + 10);
    let mut given = || -> Vec<_> {
        (0..scale.of(MANY))
            .map(|_| over_plane(&mut random))
            .collect()
    };
    report.ask(
        "opposite",
        given(),
        |(t, w, _)| {
            let (number, plane) = ours::opposite(w, t.linear);
            (number, all(plane))
        },
        |(t, w, _)| told(leaf::opposite(t, w)),
    );
    report.ask(
        "to_local",
        given(),
        |(_, w, q)| all(ours::to_local(w, q)),
        |(_, w, q)| all(local(w, q)),
    );
    report.ask(
        "distance",
        given(),
        |(_, w, q)| all(ours::distance(w, q)),
        |(_, w, q)| all(ends(leaf::distance(w, q))),
    );
    report.ask(
        "side",
        given(),
        |(t, w, q)| ours::side(w, q, t.local),
        |(t, w, q)| leaf::side(t, w, q).map_or_else(u64::from, |s| sign_code(Some(s))),
    );
}

/// The number of a refusal and zeros, or 0 and the plane.
pub fn told(o: Result<[f64; 12], u32>) -> (u64, [u64; 12]) {
    o.map_or_else(|n| (u64::from(n), [0; 12]), |w| (0, all(w)))
}

fn over_plane(random: &mut Random) -> (Tolerances, [f64; 12], [f64; 3]) {
    let t = tolerances(random);
    let (plane, q) = ask::side(random, &t);
    (t, plane, q)
}

fn local(w: &[f64; 12], q: &[f64; 3]) -> [f64; 3] {
    let d = [q[0] - w[0], q[1] - w[1], q[2] - w[2]];
    let dot = |i: usize| (d[0] * w[i] + d[1] * w[i + 1]) + d[2] * w[i + 2];
    [dot(3), dot(6), dot(9)]
}

fn turns(report: &mut Report, seed: u64, scale: Scale) {
    let mut random = Random::new(seed);
    let given: Vec<_> = (0..scale.of(MANY))
        .map(|_| {
            let t = tolerances(&mut random);
            (t, ask::shadows(&mut random, &t))
        })
        .collect();
    let shadow = |c: &[[f64; 2]; 2]| leaf::Projected {
        x: interval(&c[0]),
        y: interval(&c[1]),
    };
    report.ask(
        "mesh orientation",
        given,
        |(t, c)| ours::orientation(c, t.local),
        |(t, c)| {
            let [a, b, c] = [0, 1, 2].map(|i| shadow(&c[i]));
            leaf::orientation(t, &a, &b, &c).map_or_else(u64::from, |s| sign_code(Some(s)))
        },
    );
    let given: Vec<_> = (0..scale.of(MANY))
        .map(|_| {
            let t = tolerances(&mut random);
            (t, ask::ranges(&mut random, &t))
        })
        .collect();
    report.ask(
        "contains_range",
        given,
        |(t, [a, b, z])| ours::contains_range(*a, *b, *z, t.local),
        |(t, [a, b, z])| leaf::contains_range(t, interval(a), interval(b), interval(z)),
    );
}

/// Mostly finite; a number that is not gives none.
fn turn(random: &mut Random) -> [[f64; 2]; 3] {
    let mut t = ask::turn(random);
    if random.below(16) == 0 {
        t[random.below(3)][random.below(2)] = ask::float(random);
    }
    t
}

fn length(v: &[f64; 3]) -> f64 {
    ((v[0] * v[0] + v[1] * v[1]) + v[2] * v[2]).sqrt()
}

fn near(random: &mut Random) -> (Tolerances, [[f64; 3]; 2]) {
    let t = tolerances(random);
    let q = ask::near(random, &t);
    (t, q)
}
