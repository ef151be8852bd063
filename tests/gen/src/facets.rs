//! Facets to mesh.
use crate::jobs::tolerances;
use crate::random::Random;
use crate::solid::{add, cross, scale};
use oracle::{Face, FacetFile, Plane, Point, Tolerances};

/// A right-handed frame, nearly orthogonal as rounding leaves it.
pub fn plane(random: &mut Random, origin: Point) -> Plane {
    let z = match random.below(3) {
        0 => [0.0, 0.0, 1.0],
        _ => random.direction(),
    };
    let hint = match random.below(3) {
        0 if z == [0.0, 0.0, 1.0] => [1.0, 0.0, 0.0],
        _ => random.direction(),
    };
    let y = cross(z, hint);
    let length = (y[0] * y[0] + y[1] * y[1] + y[2] * y[2]).sqrt();
    let y = scale(y, 1.0 / length);
    let x = cross(y, z);
    let parts = [origin, x, y, z];
    std::array::from_fn(|i| parts[i / 3][i % 3])
}

fn lifted(plane: &Plane, [u, v]: [f64; 2], w: f64) -> Point {
    let part = |i: usize| [plane[i], plane[i + 1], plane[i + 2]];
    let along = add(scale(part(3), u), scale(part(6), v));
    add(part(0), add(along, scale(part(9), w)))
}

/// A polygon on a lattice: squares, combs with straight runs, stars, spirals of any turn.
fn outline(random: &mut Random) -> Vec<[f64; 2]> {
    match random.below(6) {
        0 => vec![[0.0, 0.0], [1.0, 0.0], [1.0, 1.0], [0.0, 1.0]],
        1 => comb(random.between(1, 31)),
        2 => staircase(random.between(2, 60)),
        3 => straight_runs(random.between(1, 12)),
        4 => star(random, 40),
        _ => {
            let n = random.between(0, 12);
            let lattice = |r: &mut Random| r.between(0, 4) as f64;
            (0..n).map(|_| [lattice(random), lattice(random)]).collect()
        }
    }
}

/// Teeth over a bar: 3n + 3 corners.
fn comb(n: usize) -> Vec<[f64; 2]> {
    let mut out = vec![[0.0, 0.0], [2.0 * n as f64, 0.0]];
    for i in (0..n).rev() {
        let x = 2.0 * i as f64;
        out.extend([[x + 2.0, 1.0], [x + 1.5, 3.0], [x + 0.5, 3.0], [x, 1.0]]);
    }
    out.dedup();
    out
}

fn staircase(n: usize) -> Vec<[f64; 2]> {
    let mut out = vec![[0.0, 0.0], [n as f64, 0.0]];
    for i in 1..n {
        let (x, y) = ((n - i) as f64, i as f64);
        out.extend([[x + 1.0, y], [x, y]]);
    }
    out
}

/// A square with n corners more on each side.
fn straight_runs(n: usize) -> Vec<[f64; 2]> {
    let side = (n + 1) as f64;
    let mut out = Vec::new();
    for turn in 0..4 {
        for i in 0..=n {
            let t = i as f64;
            out.push(match turn {
                0 => [t, 0.0],
                1 => [side, t],
                2 => [side - t, side],
                _ => [0.0, side - t],
            });
        }
    }
    out
}

/// Corners around the origin in order of a square's border, at any distance from it.
fn star(random: &mut Random, most: usize) -> Vec<[f64; 2]> {
    let n = random.between(3, most);
    let on_square = |i: usize| match 8.0 * i as f64 / n as f64 {
        t if t < 2.0 => [1.0, t - 1.0],
        t if t < 4.0 => [3.0 - t, 1.0],
        t if t < 6.0 => [-1.0, 5.0 - t],
        t => [t - 7.0, -1.0],
    };
    let far = |[x, y]: [f64; 2], r: f64| [x * r, y * r];
    (0..n)
        .map(|i| far(on_square(i), 0.2 + random.unit()))
        .collect()
}

/// A facet of any family; its plane may be left-handed, its corners off their plane.
pub fn any(random: &mut Random) -> FacetFile {
    let t = tolerances(random);
    let far = random.pick(&[0.0, 1.0, 1e6]);
    let origin = [(); 3].map(|()| random.signed() * far);
    let mut plane = plane(random, origin);
    if random.below(16) == 0 {
        let k = random.between(3, 11);
        plane[k] = random.pick(&[0.0, -plane[k], f64::NAN, 1e300]);
    }
    let size = random.pick(&[1.0, 1.0, 0.01, 1000.0, t.local]);
    let off = random.pick(&[0.0, 0.0, 0.5, 2.0]) * t.local;
    let mut corners = outline(random);
    if random.below(8) == 0 {
        corners.reverse();
    }
    let mut points = Vec::new();
    for [u, v] in corners {
        let w = off * random.signed();
        points.push(lifted(&plane, [u * size, v * size], w));
    }
    FacetFile {
        tolerances: t,
        facet: Face { plane, points },
    }
}

/// A family of facets with its name.
pub struct Family {
    pub name: &'static str,
    pub make: fn(&mut Random) -> FacetFile,
}

pub const FAMILIES: [Family; 12] = [
    family("any", any),
    family("convex", |r| flat(r, round)),
    family("concave", |r| flat(r, |r| star(r, 60))),
    family("spiral", |r| flat(r, |r| spiral(r.between(2, 30)))),
    family("comb", |r| flat(r, |r| comb(r.between(1, 41)))),
    family("self-crossing", |r| flat(r, crossing)),
    family("overlapping", |r| flat(r, overlapping)),
    family("straight runs", |r| {
        flat(r, |r| straight_runs(r.between(1, 31)))
    }),
    family("doubled corners", |r| flat(r, doubled)),
    family("slightly bent", bent),
    family("wrong numbers", wrong),
    family("wrong planes", skewed),
];

const fn family(name: &'static str, make: fn(&mut Random) -> FacetFile) -> Family {
    Family { name, make }
}

/// An outline on any plane, now and then the other way round.
fn flat(random: &mut Random, outline: fn(&mut Random) -> Vec<[f64; 2]>) -> FacetFile {
    let far = random.pick(&[0.0, 1.0, 1000.0]);
    let origin = [(); 3].map(|()| random.signed() * far);
    let plane = plane(random, origin);
    let size = random.pick(&[1.0, 1.0, 0.125, 100.0]);
    let mut corners = outline(random);
    if random.below(16) == 0 {
        corners.reverse();
    }
    let turn = random.below(corners.len().max(1));
    corners.rotate_left(turn);
    let point = |[u, v]: [f64; 2]| lifted(&plane, [u * size, v * size], 0.0);
    FacetFile {
        tolerances: tolerances(random),
        facet: Face {
            plane,
            points: corners.into_iter().map(point).collect(),
        },
    }
}

/// Corners on a parabola and its chord: every one turns the same way.
fn round(random: &mut Random) -> Vec<[f64; 2]> {
    let n = match random.below(8) {
        0 => random.between(100, 128),
        _ => random.between(3, 24),
    };
    let at = |i: usize| i as f64 * 16.0 / n as f64;
    (0..n).map(|i| [at(i), at(i) * at(i) / 16.0]).collect()
}

/// A corridor of n turns inward, its outer wall and then its inner wall back.
fn spiral(n: usize) -> Vec<[f64; 2]> {
    let walls = |gap: f64| {
        let mut at = [gap, gap];
        let mut out = vec![at];
        for i in 0..n {
            let side = 2.0 * (n - i) as f64 + 4.0 - 2.0 * gap;
            let way = [[1.0, 0.0], [0.0, 1.0], [-1.0, 0.0], [0.0, -1.0]][i % 4];
            at = [at[0] + way[0] * side, at[1] + way[1] * side];
            out.push(at);
        }
        out
    };
    let (outer, mut inner) = (walls(0.0), walls(0.5));
    inner.reverse();
    outer.into_iter().chain(inner).collect()
}

/// A star with two of its corners exchanged.
fn crossing(random: &mut Random) -> Vec<[f64; 2]> {
    let mut out = star(random, 24);
    let (i, j) = (random.below(out.len()), random.below(out.len()));
    out.swap(i, j);
    out
}

/// A comb that runs over a part of itself again, or touches its own edge.
fn overlapping(random: &mut Random) -> Vec<[f64; 2]> {
    let mut out = comb(random.between(1, 8));
    let (i, j) = (random.below(out.len()), random.below(out.len()));
    match random.coin() {
        true => out.insert(i, out[j]),
        false => {
            let middle = [0, 1].map(|k| 0.5 * (out[j][k] + out[(j + 1) % out.len()][k]));
            out.insert(i, middle);
        }
    }
    out
}

/// A star or a square with corners that stand twice, side by side.
fn doubled(random: &mut Random) -> Vec<[f64; 2]> {
    let mut out = match random.coin() {
        true => star(random, 12),
        false => straight_runs(random.between(1, 4)),
    };
    for _ in 0..random.between(1, 3) {
        let i = random.below(out.len());
        out.insert(i, out[i]);
    }
    out
}

/// Corners about local off their plane, and about local·local off their line.
fn bent(random: &mut Random) -> FacetFile {
    let mut f = flat(random, |r| match r.coin() {
        true => straight_runs(r.between(1, 6)),
        false => round(r),
    });
    let local = f.tolerances.local;
    for q in &mut f.facet.points {
        let by = random.pick(&[0.0, local * local, 0.5 * local, 2.0 * local]);
        for x in q.iter_mut() {
            *x += by * random.signed();
        }
    }
    f
}

/// A number that is not finite, or tolerances out of their range.
fn wrong(random: &mut Random) -> FacetFile {
    let mut f = any(random);
    let bad = random.pick(&[f64::NAN, f64::INFINITY, f64::NEG_INFINITY, 1e308]);
    match random.below(4) {
        0 => f.facet.plane[random.below(12)] = bad,
        1 => {
            let all = crate::damage::other_tolerances();
            f.tolerances = all[random.below(all.len())];
        }
        _ if f.facet.points.is_empty() => f.tolerances.linear = bad,
        _ => {
            let i = random.below(f.facet.points.len());
            f.facet.points[i][random.below(3)] = bad;
        }
    }
    f
}

/// A plane that is left-handed, flat, small or great.
fn skewed(random: &mut Random) -> FacetFile {
    let mut f = flat(random, round);
    let plane = &mut f.facet.plane;
    match random.below(4) {
        0 => plane[3..6].iter_mut().for_each(|x| *x = -*x),
        1 => plane[6..9].iter_mut().for_each(|x| *x *= 1e-300),
        2 => {
            let by = random.pick(&[1e-160, 1e-80, 1e80, 1e153, 1e155]);
            plane[9..].iter_mut().for_each(|x| *x *= by);
        }
        _ => plane[3 + random.below(9)] = random.pick(&[0.0, 1.0, -1.0]),
    }
    if random.below(4) == 0 {
        // the plane is judged before the number of corners
        f.facet.points.truncate(random.below(4));
    }
    f
}

/// Facets at the ends of the counts: 0 to 4 and 127 to 130 corners.
pub fn counts() -> Vec<FacetFile> {
    let plane = plane(&mut Random::new(0), [0.0; 3]);
    let corner = |q: [f64; 2]| lifted(&plane, q, 0.0);
    let round: Vec<Point> = straight_runs(32).into_iter().map(corner).collect();
    let facet = |n: usize| FacetFile {
        tolerances: Tolerances::USUAL,
        facet: Face {
            plane,
            points: round[..n].to_vec(),
        },
    };
    (0..=4).chain(127..=130).map(facet).collect()
}

/// The greatest facets that a mesh takes, for its speed: a convex one and a comb of 128 corners.
pub fn greatest() -> [(&'static str, FacetFile); 2] {
    let facet = |corners: Vec<[f64; 2]>| {
        let plane = plane(&mut Random::new(0), [0.0; 3]);
        let points = corners.into_iter().map(|q| lifted(&plane, q, 0.0));
        FacetFile {
            tolerances: Tolerances::USUAL,
            facet: Face {
                plane,
                points: points.collect(),
            },
        }
    };
    let at = |i: usize| i as f64 / 8.0;
    let convex = (0..128).map(|i| [at(i), at(i) * at(i) / 16.0]).collect();
    let mut teeth = comb(41);
    teeth.splice(1..1, [[20.0, 0.0], [50.0, 0.0]]);
    [("convex 128", facet(convex)), ("comb 128", facet(teeth))]
}
