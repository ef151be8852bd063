//! Questions for single functions, at their edges: whole jobs seldom meet these.
use crate::facets::plane;
use crate::random::Random;
use crate::solid::{add, ball, cube, gem, prism, scale, tetrahedron, Reshape};
use oracle::{leaf, Cell, Face, Interval, Plane, Point, Solid, Tolerances};

// ---- numbers

/// Both zeros, the ends of the subnormal, normal and allowed numbers, and where squares leave the range.
pub const SPECIAL: [f64; 20] = [
    0.0,
    5e-324,
    2.225_073_858_507_201e-308,
    f64::MIN_POSITIVE,
    1.572_723_162_945_361e-162,
    2.222_758_749_485_077_5e-162,
    1.491_668_146_240_041_3e-154,
    9.094_947_017_729_282e-13,
    9.536_743_164_062_5e-7,
    3.814_697_265_625e-6,
    0.0625,
    0.5,
    1.0,
    2.0,
    3.0,
    1_048_576.0,
    9_007_199_254_740_992.0,
    1.340_780_792_994_259_6e154,
    f64::MAX,
    f64::INFINITY,
];

fn signed(random: &mut Random, x: f64) -> f64 {
    if random.coin() {
        -x
    } else {
        x
    }
}

/// A few steps up or down.
pub fn stepped(random: &mut Random, mut x: f64, most: usize) -> f64 {
    let up = random.coin();
    for _ in 0..random.between(0, most) {
        x = if up { x.next_up() } else { x.next_down() };
    }
    x
}

/// Two neighbouring numbers between `low` and `high`, not negative, at which the answer changes.
pub fn flip<A: PartialEq>(low: f64, high: f64, ask: impl Fn(f64) -> A) -> [f64; 2] {
    let (mut a, mut b) = (low.to_bits(), high.to_bits());
    let first = ask(low);
    while b - a > 1 {
        let middle = a + (b - a) / 2;
        match ask(f64::from_bits(middle)) == first {
            true => a = middle,
            false => b = middle,
        }
    }
    [f64::from_bits(a), f64::from_bits(b)]
}

/// From 0 to local, or from there to twice local: an answer changes in each.
fn around_local(random: &mut Random, t: &Tolerances) -> [f64; 2] {
    match random.coin() {
        true => [0.0, t.local],
        false => [t.local, 2.0 * t.local],
    }
}

/// Any f64: special ones and their neighbours, random patterns, plain sizes, a NaN now and then.
pub fn float(random: &mut Random) -> f64 {
    match random.below(8) {
        0 => {
            let x = random.pick(&SPECIAL);
            signed(random, x)
        }
        1 | 2 => {
            let x = random.pick(&SPECIAL);
            let x = signed(random, x);
            stepped(random, x, 2)
        }
        3 | 4 => f64::from_bits(random.bits()),
        5 => random.between(0, 8) as f64 - 4.0,
        6 => random.signed() * 1_048_576.0,
        _ => random.signed(),
    }
}

pub fn finite(random: &mut Random) -> f64 {
    loop {
        let x = float(random);
        if x.is_finite() {
            return x;
        }
    }
}

/// Two ends, mostly in order: points, neighbours, ranges around zero, and wild ones.
pub fn interval(random: &mut Random) -> [f64; 2] {
    let x = float(random);
    match random.below(5) {
        0 => [x, x],
        1 => [x, stepped(random, x, 2)],
        2 => [-x.abs(), float(random).abs()],
        3 => [x, float(random)],
        _ => {
            let y = float(random);
            [x.min(y), x.max(y)]
        }
    }
}

/// Three intervals, now and then all of one kind: points, or the same one.
pub fn interval3(random: &mut Random) -> [[f64; 2]; 3] {
    match random.below(4) {
        0 => [(); 3].map(|()| [random.signed(); 2]),
        1 => [interval(random); 3],
        _ => [(); 3].map(|()| interval(random)),
    }
}

/// Three points of the plane: straight or nearly so, on a lattice, or of any size.
pub fn turn(random: &mut Random) -> [[f64; 2]; 3] {
    let lattice = |r: &mut Random| [r.between(0, 6) as f64 - 3.0, r.between(0, 6) as f64 - 3.0];
    let wild = |r: &mut Random| [finite(r), finite(r)];
    match random.below(4) {
        0 => [lattice(random), lattice(random), lattice(random)],
        1 => [wild(random), wild(random), wild(random)],
        2 => {
            let [a, d] = [[random.signed(); 2], [random.signed(), random.signed()]];
            let at = |t: f64| [a[0] + t * d[0], a[1] + t * d[1]];
            [at(0.0), at(random.signed()), at(random.signed())]
        }
        _ => {
            let near = |r: &mut Random, x: f64| [stepped(r, x, 4), stepped(r, x, 4)];
            [near(random, 0.5), near(random, 12.0), near(random, 24.0)]
        }
    }
}

// ---- space

/// An origin, a normal and a hint: lengths around linear, around the ends of the range, parallel ones.
pub fn frame(random: &mut Random, t: &Tolerances) -> [Point; 3] {
    let sized = |r: &mut Random| {
        let length = match r.below(6) {
            0 => stepped(r, t.linear, 3),
            1 => r.pick(&[1e-200, 1e154, 1.4e154, 1e300, 5e-324]),
            2 => 0.0,
            _ => r.unit() * 4.0,
        };
        let unit = match r.coin() {
            true => r.pick(&[[1.0, 0.0, 0.0], [0.0, -1.0, 0.0], [0.0, 0.6, 0.8]]),
            false => r.direction(),
        };
        scale(unit, length)
    };
    let origin = [(); 3].map(|()| random.signed() * 1000.0);
    let normal = sized(random);
    let hint = match random.below(6) {
        0 => scale(normal, random.signed()),
        1 => [(); 3].map(|()| float(random)),
        _ => sized(random),
    };
    [origin, normal, hint]
}

/// Three corners of a face: the area about linear, straight ones, and wild ones.
pub fn corners(random: &mut Random, t: &Tolerances) -> [Point; 3] {
    let a = place(random);
    let (along, aside) = (random.pick(&UNITS), random.pick(&UNITS));
    let long = random.pick(&[1.0, 1.0, 0.25, 1024.0, t.local, 2.0 * t.linear]);
    let wide = match random.below(4) {
        0 => stepped(random, t.linear / long, 3),
        1 => stepped(random, t.linear, 3),
        _ => random.unit() * 4.0,
    };
    let b = add(a, scale(along, long));
    let c = match random.below(6) {
        0 => add(a, scale(along, random.signed())),
        _ => add(a, scale(aside, wide)),
    };
    let mut out = [a, b, c];
    if random.below(16) == 0 {
        out[random.below(3)][random.below(3)] = float(random);
    }
    out
}

/// Directions of length one, exactly or nearly.
const UNITS: [Point; 6] = [
    [1.0, 0.0, 0.0],
    [0.0, -1.0, 0.0],
    [0.0, 0.0, 1.0],
    [0.6, 0.8, 0.0],
    [0.0, -0.6, 0.8],
    [2.0 / 7.0, 3.0 / 7.0, 6.0 / 7.0],
];

/// Shares of local at and around the places where answers change.
const SHARES: [f64; 9] = [0.0, 0.5, 0.75, 1.0, 1.0, 1.0, 1.25, 1.5, 2.0];

/// About a share of local, to a few steps.
pub fn about_local(random: &mut Random, t: &Tolerances) -> f64 {
    let x = random.pick(&SHARES) * t.local;
    let x = stepped(random, x, 4);
    signed(random, x)
}

fn place(random: &mut Random) -> Point {
    let size = random.pick(&[0.0, 0.0, 1.0, 1000.0, 1_048_576.0]);
    [(); 3].map(|()| random.signed() * size)
}

/// Two points about a share of local apart.
pub fn near(random: &mut Random, t: &Tolerances) -> [Point; 2] {
    let (a, unit) = (place(random), random.pick(&UNITS));
    let far = about_local(random, t);
    [a, add(a, scale(unit, far))]
}

/// Two points as far apart as the answer's change, on either side of it.
pub fn near_edge(random: &mut Random, t: &Tolerances) -> [[Point; 2]; 2] {
    let unit = match random.coin() {
        true => random.pick(&UNITS),
        false => random.direction(),
    };
    let pair = |far: f64| [[0.0; 3], scale(unit, far)];
    let [low, high] = around_local(random, t);
    let ask = |far: f64| leaf::near(t, &pair(far)[0], &pair(far)[1]);
    flip(low, high, ask).map(pair)
}

/// Points in a row, neighbours about a share of local apart: near is not transitive among them.
pub fn chain(random: &mut Random, t: &Tolerances) -> Vec<Point> {
    let mut at = place(random);
    let unit = random.pick(&UNITS);
    let mut out = vec![at];
    for _ in 0..random.between(1, 8) {
        let step = about_local(random, t).abs();
        at = add(at, scale(unit, step));
        out.push(at);
    }
    if random.coin() {
        random.shuffle(&mut out);
    }
    out
}

/// The plane across an axis, as a frame without rounding.
pub fn axis_plane(axis: usize, at: f64, up: bool) -> Plane {
    let unit = |k: usize, s: f64| std::array::from_fn(|i| if i == k % 3 { s } else { 0.0 });
    let sign = if up { 1.0 } else { -1.0 };
    let parts: [Point; 4] = [
        unit(axis, at),
        unit(axis + 1, 1.0),
        unit(axis + 2, sign),
        unit(axis, sign),
    ];
    std::array::from_fn(|i| parts[i / 3][i % 3])
}

fn any_plane(random: &mut Random) -> Plane {
    let origin = place(random);
    match random.coin() {
        true => axis_plane(random.below(3), origin[0], random.coin()),
        false => plane(random, origin),
    }
}

fn part(plane: &Plane, i: usize) -> Point {
    [plane[3 * i], plane[3 * i + 1], plane[3 * i + 2]]
}

/// A point over a plane: along x and y, and at a height.
fn over(plane: &Plane, u: f64, v: f64, height: f64) -> Point {
    let flat = add(scale(part(plane, 1), u), scale(part(plane, 2), v));
    add(part(plane, 0), add(flat, scale(part(plane, 3), height)))
}

/// A plane and a point at a height of about a share of local.
pub fn side(random: &mut Random, t: &Tolerances) -> (Plane, Point) {
    let plane = any_plane(random);
    let height = match random.below(8) {
        0 => finite(random),
        _ => about_local(random, t),
    };
    let (u, v) = (random.signed(), random.signed());
    (plane, over(&plane, u, v, height))
}

/// A plane and a height at which the answer changes, on either side of the change.
pub fn side_edge(random: &mut Random, t: &Tolerances) -> [(Plane, Point); 2] {
    let plane = plane(random, [0.0; 3]);
    let (u, v) = (random.signed() * t.local, random.signed() * t.local);
    let at = |height: f64| (plane, over(&plane, u, v, height));
    let [low, high] = around_local(random, t);
    flip(low, high, |h| leaf::side(t, &plane, &at(h).1)).map(at)
}

/// A plane and points on it: ties, straight runs, near ones, zeros of both signs.
pub fn hull(random: &mut Random, t: &Tolerances) -> (Plane, Vec<Point>) {
    let plane = match random.below(3) {
        0 => axis_plane(random.below(3), 0.0, random.coin()),
        _ => any_plane(random),
    };
    let lattice = |r: &mut Random| {
        let x = r.between(0, 4) as f64 - 2.0;
        match x == 0.0 && r.coin() {
            true => -0.0,
            false => x,
        }
    };
    let mut out = Vec::new();
    for _ in 0..random.between(0, 24) {
        let (u, v) = (lattice(random), lattice(random));
        let off = match random.below(4) {
            0 => about_local(random, t),
            _ => 0.0,
        };
        let exact = plane[3..].iter().all(|x| x.fract() == 0.0);
        out.push(match exact && plane[..3] == [0.0; 3] {
            true => std::array::from_fn(|i| plane[3 + i] * u + plane[6 + i] * v + off),
            false => over(&plane, u, v, off),
        });
    }
    (plane, out)
}

/// The plane z = 0 and points on it, the leftmost with a local x of -0 or +0: totalOrder decides.
pub fn hull_zeros(random: &mut Random) -> (Plane, Vec<Point>) {
    let mut points = Vec::new();
    for down in 1..=random.between(2, 4) {
        let x = random.pick(&[-0.0, 0.0]);
        points.push([x, -(down as f64), -0.0]);
    }
    points.extend([[1.0, -3.0, 0.0], [2.0, -1.0, -0.0]]);
    random.shuffle(&mut points);
    (LEVEL, points)
}

// ---- cells

/// A solid and a plane that passes close to its corners, edges or faces, or through it.
#[derive(Clone, Debug)]
pub struct Cut {
    pub tolerances: Tolerances,
    pub solid: Solid,
    pub plane: Plane,
}

pub fn cut(random: &mut Random) -> Cut {
    let t = crate::jobs::tolerances(random);
    let solid = crate::jobs::solid(random, 16);
    let corner = random.pick(&solid.points);
    let mut plane = match random.coin() {
        true => axis_plane(random.below(3), 0.0, random.coin()),
        false => plane(random, [0.0; 3]),
    };
    let height = match random.below(3) {
        0 => random.signed(),
        _ => about_local(random, &t),
    };
    let origin = add(corner, scale(part(&plane, 3), height));
    plane[..3].copy_from_slice(&origin);
    Cut {
        tolerances: t,
        solid,
        plane,
    }
}

/// Points and a polygon over them: points about local from its edges, about linear from their
/// ends, and side by side along them.
pub fn edges(random: &mut Random, t: &Tolerances) -> (Vec<Point>, Vec<usize>) {
    let a = place(random);
    let unit = random.pick(&UNITS);
    let aside = random.pick(&UNITS);
    let length = random.pick(&[1.0, 1.0, 4.0, 2.0 * t.local, t.linear, t.linear.next_up()]);
    let mut points = vec![a, add(a, scale(unit, length)), add(a, scale(aside, 3.0))];
    for _ in 0..random.between(0, 6) {
        let along = match random.below(4) {
            0 => stepped(random, t.linear, 3),
            1 => stepped(random, length - t.linear, 3),
            2 => random.pick(&[0.25, 0.5, 0.5, 0.75]) * length,
            _ => random.unit() * length,
        };
        let off = scale(random.pick(&UNITS), about_local(random, t));
        points.push(add(add(a, scale(unit, along)), off));
    }
    let mut polygon = vec![0, 1, 2];
    if random.below(8) == 0 {
        polygon[2] = random.below(points.len());
    }
    (points, polygon)
}

/// An edge and a point off its middle, on either side of the change of the answer. The edge lies
/// level and the point above it, so that a part of their cross product is nearly zero.
pub fn edges_edge(random: &mut Random, t: &Tolerances) -> [(Vec<Point>, Vec<usize>); 2] {
    let level = |r: &mut Random| [r.signed(), r.signed(), 0.0];
    let (a, b) = (level(random), level(random));
    let middle = scale(add(a, b), 0.5);
    let at = |up: f64| {
        let points = vec![a, b, [0.0, 0.0, -4.0], add(middle, [0.0, 0.0, up])];
        (points, vec![0, 1, 2])
    };
    let [low, high] = around_local(random, t);
    let ask = |up: f64| {
        let (points, polygon) = at(up);
        leaf::conform(t, &points, &polygon)
    };
    flip(low, high, ask).map(at)
}

/// An edge and a point on it, as far from its start as the change of the answer, on either side.
pub fn edges_start(random: &mut Random, t: &Tolerances) -> [(Vec<Point>, Vec<usize>); 2] {
    let edge = scale(random.direction(), 1.0 + random.unit());
    let at = |along: f64| {
        let points = vec![[0.0; 3], edge, [-4.0, 4.0, 4.0], scale(edge, along)];
        (points, vec![0, 1, 2])
    };
    let ask = |along: f64| {
        let (points, polygon) = at(along);
        leaf::conform(t, &points, &polygon)
    };
    flip(0.0, 0.5, ask).map(at)
}

/// A box whose edges are shares of local, its points in any order: near and unresolved pairs.
pub fn close_solid(random: &mut Random) -> (Tolerances, Solid) {
    let t = Tolerances {
        linear: 1.0 / (1u64 << 40) as f64,
        local: 0.0625,
    };
    let edges = [(); 3].map(|()| random.pick(&[0.5, 1.0, 1.5, 16.0]) * t.local);
    let solid = crate::solid::cuboid([0.0; 3], edges);
    (t, solid.reordered(random))
}

/// The plane z = 0.
const LEVEL: Plane = [0.0, 0.0, 0.0, 1.0, 0.0, 0.0, 0.0, 1.0, 0.0, 0.0, 0.0, 1.0];

fn level_face(points: Vec<Point>) -> Face {
    Face {
        plane: LEVEL,
        points,
    }
}

/// A level polygon across x = 0 with an unresolved pair on one side, and a face there to carve it
/// by: the piece and the remainder are refused with different numbers.
pub fn carve(random: &mut Random, t: &Tolerances) -> [Cell; 2] {
    let far = random.pick(&[-1.0, 1.0]);
    let mut points = vec![
        [-far, 0.0, 0.0],
        [far, -1.0, 0.0],
        [far, 0.0, 0.0],
        [far, t.local, 0.0],
        [far, 1.0, 0.0],
    ];
    points.rotate_left(random.below(5));
    let plane = axis_plane(0, 0.0, random.coin());
    let by = Face {
        plane,
        points: vec![[0.0; 3]; 3],
    };
    [vec![level_face(points)], vec![by]]
}

/// Level zigzags across x = 0 with about as many corners, cap points and faces as a cut may have.
pub fn limits() -> Vec<(Cell, Plane)> {
    let zigzag = |n: usize| {
        let corner = |i: usize| [if i.is_multiple_of(2) { -1.0 } else { 1.0 }, i as f64, 0.0];
        level_face((0..n).map(corner).collect())
    };
    let row = |n: usize| level_face((0..n).map(|i| [-1.0, i as f64, 0.0]).collect());
    let across = axis_plane(0, 0.0, true);
    let beyond = axis_plane(0, 5.0, true);
    let mut out = Vec::new();
    for n in [126, 127, 128, 129, 130] {
        out.push((vec![row(n), zigzag(4)], across));
        out.push((vec![row(n)], beyond));
        out.push((vec![zigzag(4); n], across));
        out.push((vec![zigzag(4); n], beyond));
        out.push((vec![zigzag(8); n], across));
    }
    for n in [82, 84, 86, 88] {
        out.push((vec![zigzag(n)], across));
    }
    out
}

/// Neighbours of each place, each pair both ways, some more than once.
pub fn graph(random: &mut Random) -> Vec<Vec<usize>> {
    let n = random.between(0, 24);
    let mut out = vec![Vec::new(); n];
    if n > 0 {
        for _ in 0..random.between(0, n + n / 4) {
            let (a, b) = (random.below(n), random.below(n));
            out[a].push(b);
            out[b].push(a);
        }
    }
    out
}

/// Two cycles, mostly one the other reversed and turned, sometimes with one entry changed.
pub fn cycles(random: &mut Random) -> [Vec<usize>; 2] {
    let a: Vec<_> = (0..random.between(0, 10))
        .map(|_| random.below(8))
        .collect();
    let mut b = a.clone();
    if !b.is_empty() {
        b.rotate_left(random.below(a.len()));
    }
    match random.below(4) {
        0 => (),
        1 if !b.is_empty() => {
            b.reverse();
            let at = random.below(b.len());
            b[at] = random.below(8);
        }
        2 => {
            b.reverse();
            b.pop();
        }
        _ => b.reverse(),
    }
    [a, b]
}

/// A shell of facets: outward, inward, flat or thin.
pub fn shell(random: &mut Random) -> Solid {
    let mut solid = match random.below(5) {
        0 => cube(0.0, 1.0),
        1 => tetrahedron(1.0),
        2 => gem(random, 8),
        3 => ball(random, 8),
        _ => prism(5, 1.0, 1.0),
    };
    let height = random.pick(&[1.0, 1.0, 0.0, 1e-9, 1e-17, 1e-300]);
    let by = place(random);
    solid = solid.mapped(|q| add([q[0], q[1], q[2] * height], by));
    if random.coin() {
        solid.faces.iter_mut().for_each(|f| f.reverse());
    }
    solid.reordered(random)
}

/// Cells of loose facets over few lattice points: what fusing refuses between 13 and 23.
pub fn loose(random: &mut Random, t: &Tolerances) -> Vec<Vec<Vec<Point>>> {
    let mut cells: Vec<Vec<Vec<Point>>> = Vec::new();
    for _ in 0..random.between(1, 3) {
        let solid = match random.coin() {
            true => cube(0.0, 1.0).shifted([random.below(2) as f64, 0.0, 0.0]),
            false => tetrahedron(1.0),
        };
        let corners = |f: &Vec<usize>| f.iter().map(|&i| solid.points[i]).collect();
        cells.push(solid.faces.iter().map(corners).collect());
    }
    for _ in 0..random.between(0, 2) {
        let cell = random.below(cells.len());
        let face = random.below(cells[cell].len());
        spoil(random, t, &mut cells[cell], face);
        if cells[cell].is_empty() {
            cells.remove(cell);
            break;
        }
    }
    cells
}

fn spoil(random: &mut Random, t: &Tolerances, cell: &mut Vec<Vec<Point>>, face: usize) {
    match random.below(7) {
        0 => drop(cell.remove(face)),
        1 => cell.push(cell[face].clone()),
        2 => cell[face].reverse(),
        3 => cell.iter_mut().for_each(|f| f.reverse()),
        4 => {
            let corner = random.below(cell[face].len());
            let by = scale(random.pick(&UNITS), about_local(random, t));
            cell[face][corner] = add(cell[face][corner], by);
        }
        5 => {
            let (at, unit) = (cell[face][0], random.pick(&UNITS));
            let beside = |share: f64| add(at, scale(unit, share * t.local));
            cell[face].extend([beside(1.5), beside(0.75)]);
        }
        _ => {
            let far = |f: &Vec<Point>| f.iter().map(|&q| add(q, [8.0; 3])).collect();
            let copy: Vec<_> = cell.iter().map(far).collect();
            cell.extend(copy);
        }
    }
}

// ---- mesh

/// Three projected corners: straight or nearly so, their intervals from points to wide.
pub fn shadows(random: &mut Random, t: &Tolerances) -> [[[f64; 2]; 2]; 3] {
    let size = random.pick(&[1.0, 1.0, t.local, 1000.0, 1_048_576.0]);
    let width = random.pick(&[0.0, 1e-16, t.local * t.local, t.local]) * random.unit();
    let flat = turn(random);
    flat.map(|q| {
        q.map(|x| {
            let x = x * size;
            [x - width, x + width]
        })
    })
}

/// Three straight corners, the last as wide as the change from Zero to refused, on either side.
pub fn shadows_edge(random: &mut Random, t: &Tolerances) -> [[leaf::Projected; 3]; 2] {
    let shadow = |x: f64, y: [f64; 2]| leaf::Projected {
        x: Interval::point(x),
        y: Interval::ends(y[0], y[1]),
    };
    let (end, at) = (1.0 + random.unit(), random.unit());
    let share = random.pick(&[0.0, 0.25, 1.0]);
    let turned = random.coin();
    let corners = |w: f64| {
        let y = match turned {
            true => [-w, share * w],
            false => [-share * w, w],
        };
        [shadow(0.0, [0.0; 2]), shadow(end, [0.0; 2]), shadow(at, y)]
    };
    let ask = |w: f64| {
        let [a, b, c] = corners(w);
        leaf::orientation(t, &a, &b, &c)
    };
    flip(0.0, t.local, ask).map(corners)
}

/// Three intervals, the third about local past the range of the others.
pub fn ranges(random: &mut Random, t: &Tolerances) -> [[f64; 2]; 3] {
    let a = interval(random);
    let b = interval(random);
    let end = random.pick(&[a[0], a[1], b[0], b[1]]);
    let past = about_local(random, t);
    let z = stepped(random, end + past, 2);
    [a, b, [z, stepped(random, z, 1)]]
}
