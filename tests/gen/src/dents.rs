//! Faces that turn inward at a corner, go straight on, or nearly so: 4, 5 and 33 of the check of an input face (request 2/13).
use crate::random::Random;
use crate::solid::{add, cube, cuboid, gem, prism, scale, sub, Reshape};
use oracle::{Point, Solid, Tolerances};

/// The box 0..2 whose high z side is two faces, the one with the corner at the origin a quadrilateral: where its inner corner is (1, 1), it
/// is a square and the other an L; on the line x + y = 1 both go straight on there.
pub fn split_top([x, y]: [f64; 2]) -> Solid {
    let mut solid = cube(0.0, 2.0);
    solid
        .points
        .extend([[1.0, 0.0, 2.0], [x, y, 2.0], [0.0, 1.0, 2.0]]);
    solid.faces[0] = vec![0, 4, 10, 6, 2];
    solid.faces[1] = vec![0, 1, 5, 8, 4];
    solid.faces[5] = vec![5, 7, 6, 10, 9, 8];
    solid.faces.push(vec![4, 8, 9, 10]);
    solid
}

/// A wedge over the triangle (0, 0), (size, 0), (0, size), as high; both ends have one corner more in the middle of the oblique edge, moved
/// inward by so much along both axes.
pub fn wedge(size: f64, inward: f64) -> Solid {
    let middle = size / 2.0 - inward;
    let level = |z: f64| {
        [
            [0.0, 0.0, z],
            [size, 0.0, z],
            [middle, middle, z],
            [0.0, size, z],
        ]
    };
    let faces = [
        [1, 0, 3, 2],
        [4, 5, 6, 7],
        [0, 1, 5, 4],
        [1, 2, 6, 5],
        [2, 3, 7, 6],
        [3, 0, 4, 7],
    ];
    Solid {
        points: [level(0.0), level(size)].concat(),
        faces: faces.map(Vec::from).into(),
    }
}

fn between(a: Point, b: Point, share: f64) -> Point {
    add(a, scale(sub(b, a), share))
}

/// Points more on the edge that leaves a corner of a face, at these shares of it: both faces of the edge run through them.
pub fn run(solid: &Solid, face: usize, corner: usize, shares: &[f64]) -> Solid {
    let mut solid = solid.clone();
    let ends = |f: &[usize], k: usize| [f[k], f[(k + 1) % f.len()]];
    let [a, b] = ends(&solid.faces[face], corner);
    let [low, high] = [a, b].map(|i| solid.points[i]);
    let more: Vec<usize> = (0..shares.len()).map(|k| solid.points.len() + k).collect();
    let back: Vec<usize> = more.iter().rev().copied().collect();
    for (edge, more) in [([a, b], more), ([b, a], back)] {
        for f in &mut solid.faces {
            if let Some(k) = (0..f.len()).find(|&k| ends(f, k) == edge) {
                f.splice(k + 1..k + 1, more.iter().copied());
            }
        }
    }
    let points = shares.iter().map(|&share| between(low, high, share));
    solid.points.extend(points);
    solid
}

/// A face split in two from one corner to another, through a point of the face.
pub fn split(solid: &Solid, face: usize, [i, j]: [usize; 2], through: Point) -> Solid {
    let mut solid = solid.clone();
    let corners = solid.faces[face].clone();
    let n = corners.len();
    let inner = solid.points.len();
    let part = |from: usize, to: usize| {
        let kept = (0..=(to + n - from) % n).map(|k| corners[(from + k) % n]);
        kept.chain([inner]).collect()
    };
    solid.points.push(through);
    solid.faces[face] = part(i, j);
    solid.faces.push(part(j, i));
    solid
}

/// A face's list begun at another corner.
pub fn begun(solid: &Solid, face: usize, start: usize) -> Solid {
    let mut solid = solid.clone();
    solid.faces[face].rotate_left(start);
    solid
}

/// Solids with what the check gives at the usual tolerances.
pub fn known() -> Vec<(&'static str, Solid, u32)> {
    let step = |n: i32| 2f64.powi(n);
    let dented = split_top([1.0, 1.0]);
    let middle = run(&cube(0.0, 2.0), 3, 1, &[0.5]);
    let mut all = vec![
        ("a straight split", split_top([0.5, 0.5]), 0),
        ("an L three times as large", dented.scaled(3.0), 4),
        ("the other of two faces dented", split_top([0.25, 0.25]), 4),
        ("a wedge of 128", wedge(step(7), 0.0), 0),
        ("a wedge of 256", wedge(step(8), 0.0), 33),
        ("inward by a rounding", wedge(1.0, step(-52)), 0),
        ("inward by four", wedge(1.0, step(-50)), 4),
        ("outward by a rounding", wedge(1.0, -step(-52)), 0),
        ("outward by four", wedge(1.0, -step(-50)), 0),
        ("inward within local", wedge(1.0, step(-20)), 4),
        ("outward within local", wedge(1.0, -step(-20)), 0),
    ];
    all.extend((0..6).map(|k| ("an L", begun(&dented, 5, k), 4)));
    // the face 3 is 1, 3, the middle, 7, 5: begun at its second corner, the first three are straight
    let number = |k: usize| if k == 1 { 5 } else { 0 };
    all.extend((0..5).map(|k| ("a middle of an edge", begun(&middle, 3, k), number(k))));
    all
}

/// How far a corner stands off a line, as a share of what lies beside it.
fn little(random: &mut Random, t: &Tolerances) -> f64 {
    let off = match random.below(4) {
        0 => 0.0,
        1 => 2f64.powi(-(random.between(44, 54) as i32)),
        2 => t.local * random.pick(&[0.25, 0.5, 1.0, 2.0]),
        _ => random.pick(&[0.01, 0.25, 0.5]),
    };
    off * random.pick(&[-1.0, 1.0])
}

/// A solid whose faces have any number of corners.
fn base(random: &mut Random) -> Solid {
    match random.below(4) {
        0 => cube(0.0, 2.0),
        1 => cuboid([0.0; 3], [(); 3].map(|()| 0.25 + random.unit())),
        2 => prism(random.between(3, 8), 1.0, 1.0),
        _ => {
            let faces = random.between(5, 12);
            gem(random, faces)
        }
    }
}

/// A face split through a point beside the line between two of its corners, towards a third.
fn any_split(random: &mut Random, t: &Tolerances) -> Solid {
    let solid = base(random);
    let face = random.below(solid.faces.len());
    let n = solid.faces[face].len();
    let i = random.below(n);
    let j = (i + random.between(1, n - 1)) % n;
    let [a, b, c] = [i, j, (j + 1) % n].map(|k| solid.points[solid.faces[face][k]]);
    let share = random.pick(&[0.5, 0.25, 0.3]);
    let through = between(between(a, b, share), c, little(random, t));
    split(&solid, face, [i, j], through)
}

/// One to three points on an edge, in the order of the run or in any.
fn any_run(random: &mut Random) -> Solid {
    let solid = base(random);
    let face = random.below(solid.faces.len());
    let corner = random.below(solid.faces[face].len());
    let mut shares = vec![0.25, 0.3, 0.5];
    shares.truncate(random.between(1, 3));
    if random.below(4) == 0 {
        random.shuffle(&mut shares);
    }
    run(&solid, face, corner, &shares)
}

/// A dent or a straight run of any kind, at any place of its face, mostly along the axes, now and then turned, large or far out.
pub fn any(random: &mut Random, t: &Tolerances) -> Solid {
    let size = 2f64.powi(random.between(0, 18) as i32);
    let mut solid = match random.below(6) {
        0 => split_top([random.unit(), random.unit()]),
        1 => wedge(1.0, little(random, t)),
        2 => wedge(size, 0.0),
        3 => any_run(random),
        _ => any_split(random, t),
    };
    match random.below(8) {
        0 => solid = solid.turned(random.signed()),
        1 => solid = solid.scaled(size / 4.0),
        2 => solid = solid.shifted([size, -size / 2.0, 0.0]),
        _ => (),
    }
    match random.coin() {
        true => solid.reordered(random),
        false => solid,
    }
}
