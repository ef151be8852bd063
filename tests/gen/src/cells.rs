//! Cells to offset and to hollow.
use crate::dents;
use crate::family::{family, Family};
use crate::jobs::{sliver, solid, split_side, tolerances};
use crate::leaves::{flip, stepped};
use crate::random::Random;
use crate::solid::{cuboid, gem, prism, pyramid, tetrahedron, Reshape};
use oracle::{Call, CellFile, Solid, Tolerances};

/// A cell and a distance: an offset's, or a hollow's thickness.
#[derive(Clone, Debug)]
pub struct Moved {
    pub cell: CellFile,
    pub by: f64,
}

fn moved(tolerances: Tolerances, solid: Solid, by: f64) -> Moved {
    let cell = CellFile { tolerances, solid };
    Moved { cell, by }
}

pub const FAMILIES: [Family<Moved>; 11] = [
    family("boxes", |r| one(r, boxed), 1),
    family(
        "prisms",
        |r| one(r, |r| prism(r.between(3, 12), 1.0, 1.0 + r.unit())),
        2,
    ),
    family("tetrahedra", |r| one(r, |r| tetrahedron(1.0 + r.unit())), 1),
    family("20 faces", |r| one(r, |r| gem(r, 20)), 8),
    family(
        "pyramids",
        |r| one(r, |r| pyramid(r.between(3, 8), 1.0, 1.0 + r.unit())),
        1,
    ),
    family("split sides", |r| one(r, split_side), 1),
    family("dents", dented, 1),
    family("slivers", |r| one(r, sliver), 1),
    family("about half a box", box_near_half, 1),
    family("far out", far, 1),
    family("any", any, 8),
];

/// The same with a thickness, which is mostly above zero.
pub fn wall(random: &mut Random, moved: Moved) -> Moved {
    match random.below(8) {
        0 => moved,
        _ => Moved {
            by: moved.by.abs(),
            ..moved
        },
    }
}

fn boxed(random: &mut Random) -> Solid {
    cuboid([0.0; 3], [(); 3].map(|()| 0.25 + random.unit()))
}

fn simple_solid(random: &mut Random) -> Solid {
    match random.below(4) {
        0 => prism(random.between(3, 62), 1.0, 1.0 + random.unit()),
        1 => boxed(random),
        2 => solid(random, 20),
        _ => {
            let faces = random.between(4, 64);
            gem(random, faces)
        }
    }
}

/// About the limits, a share of the cell, or any number.
fn distance(random: &mut Random, t: &Tolerances) -> f64 {
    let special = [
        0.0,
        t.linear,
        2.0 * t.linear,
        t.local,
        1.5 * t.local,
        2.0 * t.local,
        1e9,
        1e300,
        f64::MAX,
        f64::MIN_POSITIVE,
        f64::from_bits(1),
    ];
    match random.below(8) {
        0 => random.pick(&[f64::NAN, f64::INFINITY, f64::NEG_INFINITY, -0.0]),
        1 | 2 => {
            let by = random.pick(&special) * random.pick(&[-1.0, 1.0]);
            stepped(random, by, 1)
        }
        3..=5 => 0.05 * random.signed(),
        _ => random.signed(),
    }
}

/// A solid of one family, now and then turned or in another order.
fn one(random: &mut Random, solid: fn(&mut Random) -> Solid) -> Moved {
    let t = tolerances(random);
    let mut solid = solid(random);
    match random.below(4) {
        0 => solid = solid.turned(random.signed()),
        1 => solid = solid.reordered(random),
        _ => (),
    }
    let by = distance(random, &t);
    moved(t, solid, by)
}

/// A cell with a dent or a straight run.
fn dented(random: &mut Random) -> Moved {
    let t = tolerances(random);
    let solid = dents::any(random, &t);
    let by = distance(random, &t);
    moved(t, solid, by)
}

/// A cell of any family, near the origin or far from it.
pub fn any(random: &mut Random) -> Moved {
    let t = tolerances(random);
    let mut solid = simple_solid(random);
    if random.below(4) == 0 {
        let size = (1u64 << random.between(0, 19)) as f64;
        solid = solid.scaled(size / 8.0).shifted([size / 2.0; 3]);
    }
    if random.below(4) == 0 {
        solid = solid.reordered(random);
    }
    let by = distance(random, &t);
    moved(t, solid, by)
}

/// A box that ends at 2^20, moved by little or much.
fn far(random: &mut Random) -> Moved {
    let t = tolerances(random);
    let end = 1_048_576.0;
    let low = [(); 3].map(|()| end * random.signed());
    let by = match random.below(4) {
        0 => 1.0,
        1 => -1.0,
        2 => 1e5 * random.signed(),
        _ => distance(random, &t),
    };
    moved(t, cuboid(low, [end; 3]), by)
}

/// A box whose wall or offset comes close to half its edge.
pub fn box_near_half(random: &mut Random) -> Moved {
    let t = tolerances(random);
    let share = random.pick(&[-2.0, -1.0, -0.5, 0.0, 0.5, 1.0, 2.0]);
    let solid = cuboid([0.0; 3], [2.0, 2.0, 3.0]);
    moved(t, solid, 1.0 + share * t.local)
}

/// A cell and two neighbouring distances of one sign between which the call's outcome changes.
pub fn edge(random: &mut Random, call: fn(f64) -> Call) -> [Moved; 2] {
    let t = tolerances(random);
    let solid = match random.below(4) {
        0 => prism(random.between(3, 8), 1.0, 1.0 + random.unit()),
        1 => tetrahedron(1.0),
        2 => gem(random, 8),
        _ => boxed(random),
    };
    let sign = match call(0.0) {
        Call::Hollow(_) => 1.0,
        _ => random.pick(&[-1.0, 1.0]),
    };
    let bytes = moved(t, solid.clone(), 0.0).cell.bytes();
    let number = |by: f64| call(sign * by).answer(&bytes, 4096, 4096 * 64).err();
    let ends = [
        0.0,
        t.linear,
        t.local,
        4.0 * t.local,
        0.25,
        1.5,
        1e3,
        1e6,
        1e12,
    ];
    let i = random.below(ends.len() - 1);
    let (low, high) = (ends[i], ends[random.between(i + 1, ends.len() - 1)]);
    flip(low, high, number).map(|by| moved(t, solid.clone(), sign * by))
}
