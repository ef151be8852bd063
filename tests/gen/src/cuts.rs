//! Cells to cut, caps, and points to drop near ones of.
use crate::jobs::{solid, tolerances};
use crate::leaves::{self, axis_plane};
use crate::random::Random;
use crate::solid::{add, cuboid, gem, prism, scale, Reshape};
use oracle::{leaf, Cell, Face, Plane, Point, Solid, Tolerances};

#[derive(Clone, Debug)]
pub struct Cut {
    pub tolerances: Tolerances,
    pub cell: Cell,
    pub plane: Plane,
}

/// The families of cells, each with its name.
pub const FAMILIES: [(&str, fn(&mut Random) -> Cut); 5] = [
    ("boxes", boxes),
    ("prisms", prisms),
    ("convex cells", convex),
    ("cut cells", cut_again),
    ("damaged cells", damaged),
];

/// A solid's faces with their planes; a face without a frame gets the plane z = 0.
fn cell(t: &Tolerances, solid: &Solid) -> Cell {
    let level = axis_plane(2, 0.0, true);
    let face = |f: &Vec<usize>| {
        let points: Vec<_> = f.iter().map(|&i| solid.points[i]).collect();
        let corners = [points[0], points[1], points[2]];
        let plane = leaf::face_plane(t, &corners).unwrap_or(level);
        Face { plane, points }
    };
    solid.faces.iter().map(face).collect()
}

/// A plane whose origin stands about a share of local over a corner, or anywhere near it.
fn plane_at(random: &mut Random, t: &Tolerances, corner: Point) -> Plane {
    let mut plane = match random.coin() {
        true => axis_plane(random.below(3), 0.0, random.coin()),
        false => crate::facets::plane(random, [0.0; 3]),
    };
    let height = match random.below(3) {
        0 => random.signed(),
        1 => 0.0,
        _ => leaves::about_local(random, t),
    };
    let normal = [plane[9], plane[10], plane[11]];
    let origin = add(corner, scale(normal, height));
    plane[..3].copy_from_slice(&origin);
    plane
}

/// A corner of a solid, or the middle between two.
fn near_corner(random: &mut Random, points: &[Point]) -> Point {
    let a = random.pick(points);
    match random.coin() {
        true => a,
        false => scale(add(a, random.pick(points)), 0.5),
    }
}

fn of_solid(random: &mut Random, t: Tolerances, solid: &Solid) -> Cut {
    let corner = near_corner(random, &solid.points);
    let plane = plane_at(random, &t, corner);
    Cut {
        tolerances: t,
        cell: cell(&t, solid),
        plane,
    }
}

pub fn boxes(random: &mut Random) -> Cut {
    let t = tolerances(random);
    let thin = random.pick(&[1.0, 1.0, 1.0, 2.0 * t.local, 0.75 * t.local]);
    let edges = [
        random.pick(&[1.0, 2.0, 0.5 + thin]),
        1.0 + random.unit(),
        thin,
    ];
    let solid = cuboid([0.0; 3], edges);
    of_solid(random, t, &solid)
}

pub fn prisms(random: &mut Random) -> Cut {
    let t = tolerances(random);
    let sides = match random.below(32) {
        0 => random.between(40, 120),
        _ => random.between(3, 12),
    };
    let solid = prism(sides, 1.0, 1.0 + random.unit());
    of_solid(random, t, &solid)
}

pub fn convex(random: &mut Random) -> Cut {
    let t = tolerances(random);
    let solid = match random.below(4) {
        0 => {
            let faces = random.between(8, 24);
            gem(random, faces)
        }
        _ => solid(random, 12),
    };
    let by = random.pick(&[0.0, 0.0, 10.0, 1000.0]);
    let solid = solid.shifted([by; 3]);
    of_solid(random, t, &solid)
}

/// What one or two cuts leave of a convex cell.
pub fn cut_again(random: &mut Random) -> Cut {
    let mut cut = convex(random);
    for _ in 0..random.between(1, 2) {
        if let Ok(Some(part)) = leaf::clip(&cut.tolerances, None, &cut.cell, &cut.plane) {
            cut.cell = part;
        }
        let points: Vec<Point> = cut.cell.iter().flat_map(|f| f.points.clone()).collect();
        let corner = near_corner(random, &points);
        cut.plane = plane_at(random, &cut.tolerances, corner);
    }
    cut
}

/// A cell that is none: corners moved, doubled, dropped or wild; faces dropped, doubled, reversed.
pub fn damaged(random: &mut Random) -> Cut {
    let mut cut = match random.coin() {
        true => boxes(random),
        false => convex(random),
    };
    for _ in 0..random.between(1, 3) {
        damage(random, &mut cut);
    }
    cut
}

fn damage(random: &mut Random, cut: &mut Cut) {
    let t = cut.tolerances;
    if cut.cell.is_empty() {
        return;
    }
    let f = random.below(cut.cell.len());
    if cut.cell[f].points.is_empty() {
        return;
    }
    let c = random.below(cut.cell[f].points.len());
    let axis = random.below(3);
    match random.below(10) {
        0 => drop(cut.cell.remove(f)),
        1 => {
            let copy = cut.cell[f].clone();
            cut.cell.push(copy);
        }
        2 => cut.cell[f].points.reverse(),
        3 => drop(cut.cell[f].points.remove(c)),
        4 | 5 => {
            let chain = close_points(random, &t, 4);
            let at = cut.cell[f].points[c];
            for q in chain {
                cut.cell[f].points.insert(c, add(at, scale(q, 0.5)));
            }
        }
        6 => cut.cell[f].points[c][axis] += leaves::about_local(random, &t),
        7 => cut.cell[f].points[c][axis] = leaves::float(random),
        8 => random.shuffle(&mut cut.cell[f].points),
        _ => cut.plane[random.below(12)] = leaves::float(random),
    }
}

/// Points in chains: each near the next, some apart from the one after, in any order.
pub fn close_points(random: &mut Random, t: &Tolerances, most: usize) -> Vec<Point> {
    let mut out = Vec::new();
    for _ in 0..random.between(1, 4) {
        out.extend(leaves::chain(random, t));
    }
    if random.below(64) == 0 {
        while out.len() < most {
            out.extend(leaves::chain(random, t));
        }
    }
    if random.below(8) == 0 {
        let (i, axis) = (random.below(out.len()), random.below(3));
        out[i][axis] = leaves::float(random);
    }
    out.truncate(most);
    out
}

/// Rows of so many points, a unit apart.
pub fn rows(lengths: &[usize]) -> Vec<Vec<Point>> {
    let row = |&n: &usize| (0..n).map(|i| [i as f64, 0.0, -0.0]).collect();
    lengths.iter().map(row).collect()
}

/// Points on a plane, or on a line of it, now and then a wild one, or local coordinates that are not finite.
pub fn cap(random: &mut Random, most: usize) -> (Plane, Vec<Point>) {
    let mut plane = axis_plane(random.below(3), 0.0, random.coin());
    let straight = random.below(4) == 0;
    let point = |r: &mut Random| -> Point {
        let (u, v) = (r.between(0, 9) as f64 * 0.1, r.between(0, 9) as f64 * 0.1);
        let v = if straight { 3.0 * u } else { v };
        std::array::from_fn(|i| plane[3 + i] * u + plane[6 + i] * v)
    };
    let mut out: Vec<_> = (0..random.between(0, most))
        .map(|_| point(random))
        .collect();
    if random.below(16) == 0 && !out.is_empty() {
        let i = random.below(out.len());
        out[i][random.below(3)] = leaves::float(random);
    }
    if random.below(8) == 0 {
        let by = random.pick(&[1e308, f64::MAX, f64::INFINITY]);
        plane[3 + random.below(6)] *= by;
    }
    (plane, out)
}

/// Round caps and lattices of many points: hulls of 128 and 129 corners, 1,024 and more points.
pub fn great_caps() -> Vec<(Plane, Vec<Point>)> {
    let plane = axis_plane(2, 0.0, true);
    let round = |n: usize| -> Vec<Point> {
        // on a parabola, so that every point is a corner
        (0..n).map(|i| [i as f64, (i * i) as f64, 0.0]).collect()
    };
    let lattice = |n: usize| -> Vec<Point> {
        (0..n)
            .map(|i| [(i % 37) as f64, (i / 37) as f64, 0.0])
            .collect()
    };
    let mut out = Vec::new();
    for n in [2, 3, 127, 128, 129, 130] {
        out.push((plane, round(n)));
    }
    for n in [1023, 1024, 1025, 1100] {
        out.push((plane, lattice(n)));
    }
    out
}

/// Cells with about as many corners, faces and cap points as a cut may have.
pub fn limits() -> Vec<Cut> {
    let usual = |(cell, plane): (Cell, Plane)| Cut {
        tolerances: Tolerances::USUAL,
        cell,
        plane,
    };
    let mut out: Vec<_> = leaves::limits().into_iter().map(usual).collect();
    for more in 0..3 {
        out.push(usual(many_cap_points(more)));
    }
    out
}

/// A cap of 1,024 points, and `more` corners on the plane.
fn many_cap_points(more: usize) -> (Cell, Plane) {
    let across = axis_plane(0, 0.0, true);
    let zigzag = |z: f64| {
        let corner = |i: usize| [if i.is_multiple_of(2) { -1.0 } else { 1.0 }, i as f64, z];
        Face {
            plane: axis_plane(2, z, true),
            points: (0..8).map(corner).collect(),
        }
    };
    let mut cell: Cell = (0..127).map(|i| zigzag(i as f64)).collect();
    cell.push(zigzag(127.0));
    let last = &mut cell[127].points;
    for i in 0..more {
        last.push([0.0, 20.0 + i as f64, 127.0]);
    }
    (cell, across)
}

/// Cells that a cut through their middle divides, for its speed: boxes, and cells of 20 faces.
pub fn timed(n: usize) -> [(&'static str, Vec<Cut>); 2] {
    let mut random = Random::new(7);
    let t = Tolerances::USUAL;
    let mut halved = |solid: fn(&mut Random) -> Solid| -> Vec<Cut> {
        let mut out = Vec::new();
        while out.len() < n {
            let cut = Cut {
                tolerances: t,
                cell: cell(&t, &solid(&mut random)),
                plane: crate::facets::plane(&mut random, [0.0; 3]),
            };
            if let Ok(Some(_)) = leaf::clip(&t, Some(720), &cut.cell, &cut.plane) {
                out.push(cut);
            }
        }
        out
    };
    let boxed = halved(|r| cuboid([(); 3].map(|()| -1.0 - r.unit()), [1.0; 3]));
    let cut = halved(|r| gem(r, 20));
    [("a box", boxed), ("a 20-face cell", cut)]
}
