//! A fixed list of the oracle's answers, as the program `replay` reads it: records of 20 words, the kind of
//! question, 17 numbers and 2 words of the answer.
use crate::jobs::tolerances;
use crate::leaves as ask;
use crate::random::Random;
use oracle::leaf;
use oracle::{Interval, Sign};

/// Questions of each kind; the whole list fits the 65,536 bytes that the program reads.
const EACH: usize = 20;

/// The seed of the list in `crates/replay/stdin`.
pub const SEED: u64 = 8;

const NAN: u64 = 0x7ff8_0000_0000_0000;

type Answer = [u64; 2];

fn bits(x: f64) -> u64 {
    if x.is_nan() {
        NAN
    } else {
        x.to_bits()
    }
}

fn one(n: u64) -> Answer {
    [n, 0]
}

fn ends(i: Interval) -> Answer {
    [bits(i.lo()), bits(i.hi())]
}

fn sign(s: Option<Sign>) -> u64 {
    match s {
        Some(Sign::Zero) => 0,
        Some(Sign::Positive) => 1,
        Some(Sign::Negative) => 2,
        None => 3,
    }
}

fn certified(s: Result<Sign, u32>) -> Answer {
    one(s.map_or_else(u64::from, |s| sign(Some(s))))
}

/// The numbers of a question of this kind.
fn question(kind: u64, random: &mut Random) -> Vec<f64> {
    let t = tolerances(random);
    match kind {
        1..=4 | 8 => vec![ask::float(random)],
        5..=7 => {
            let x = ask::float(random);
            vec![
                x,
                if random.coin() {
                    -x
                } else {
                    ask::float(random)
                },
            ]
        }
        9 => ask::turn(random).concat(),
        10..=15 => [ask::interval(random), ask::interval(random)].concat(),
        16 => [ask::near(random, &t).concat(), vec![t.local]].concat(),
        17 | 18 => {
            let (plane, q) = ask::side(random, &t);
            [plane.to_vec(), q.to_vec(), vec![t.local]].concat()
        }
        19 => [ask::shadows(random, &t).concat().concat(), vec![t.local]].concat(),
        _ => [ask::ranges(random, &t).concat(), vec![t.local]].concat(),
    }
}

fn answer(kind: u64, v: &[f64]) -> Answer {
    let interval = |i: usize| Interval::ends(v[i], v[i + 1]);
    let point = |i: usize| [v[i], v[i + 1], v[i + 2]];
    let tolerances = |local: f64| leaf::Tolerances {
        linear: local,
        local,
    };
    let plane = || -> leaf::Plane { v[..12].try_into().expect("a plane has 12 numbers") };
    let shadow = |i: usize| leaf::Projected {
        x: interval(i),
        y: interval(i + 2),
    };
    match kind {
        1 => one(bits(leaf::next_up(v[0]))),
        2 => one(bits(leaf::next_down(v[0]))),
        3 => one(bits(v[0].abs())),
        4 => one(u64::from(v[0].is_finite())),
        5 => one(bits(leaf::lesser(v[0], v[1]))),
        6 => one(bits(leaf::greater(v[0], v[1]))),
        7 => one(u64::from(leaf::before(v[0], v[1]))),
        8 => one(bits(leaf::square_root(v[0]))),
        9 => one(sign(leaf::orient2d(
            [v[0], v[1]],
            [v[2], v[3]],
            [v[4], v[5]],
        ))),
        10 => ends(interval(0) + interval(2)),
        11 => ends(interval(0) - interval(2)),
        12 => ends(interval(0) * interval(2)),
        13 => ends(interval(0).sqr()),
        14 => leaf::reciprocal(interval(0)).map_or(one(1), ends),
        15 => one(sign(interval(0).sign())),
        16 => {
            let near = leaf::near(&tolerances(v[6]), &point(0), &point(3));
            one(near.map_or_else(u64::from, u64::from))
        }
        17 => ends(leaf::distance(&plane(), &point(12))),
        18 => certified(leaf::side(&tolerances(v[15]), &plane(), &point(12))),
        19 => certified(leaf::orientation(
            &tolerances(v[12]),
            &shadow(0),
            &shadow(4),
            &shadow(8),
        )),
        _ => {
            let t = tolerances(v[6]);
            let inside = leaf::contains_range(&t, interval(0), interval(2), interval(4));
            one(u64::from(inside))
        }
    }
}

/// `before` is asked of numbers that are no NaN.
fn fair(kind: u64, v: &[f64]) -> bool {
    kind != 7 || !v.iter().any(|x| x.is_nan())
}

/// The list of this seed.
pub fn list(seed: u64) -> Vec<u8> {
    let mut random = Random::new(seed);
    let mut out = Vec::new();
    for kind in 1..=20 {
        for _ in 0..EACH {
            let mut v = question(kind, &mut random);
            while !fair(kind, &v) {
                v = question(kind, &mut random);
            }
            let r = answer(kind, &v);
            v.resize(17, 0.0);
            out.extend(kind.to_le_bytes());
            v.iter().for_each(|&x| out.extend(bits(x).to_le_bytes()));
            r.iter().for_each(|x| out.extend(x.to_le_bytes()));
        }
    }
    out
}
