//! Solids, counter-clockwise from outside.
use crate::random::Random;
use oracle::{Point, Solid};

pub fn add(a: Point, b: Point) -> Point {
    [a[0] + b[0], a[1] + b[1], a[2] + b[2]]
}

pub fn sub(a: Point, b: Point) -> Point {
    [a[0] - b[0], a[1] - b[1], a[2] - b[2]]
}

pub fn scale(a: Point, t: f64) -> Point {
    a.map(|x| x * t)
}

pub fn dot(a: Point, b: Point) -> f64 {
    a[0] * b[0] + a[1] * b[1] + a[2] * b[2]
}

pub fn cross(a: Point, b: Point) -> Point {
    [
        a[1] * b[2] - a[2] * b[1],
        a[2] * b[0] - a[0] * b[2],
        a[0] * b[1] - a[1] * b[0],
    ]
}

/// A box with its faces ordered low x, low y, low z, high x, high y, high z.
pub fn cuboid(low: Point, high: Point) -> Solid {
    let corner = |i: usize| std::array::from_fn(|k| if i >> k & 1 == 1 { high[k] } else { low[k] });
    let faces = [
        [0, 4, 6, 2],
        [0, 1, 5, 4],
        [0, 2, 3, 1],
        [1, 3, 7, 5],
        [2, 6, 7, 3],
        [4, 5, 7, 6],
    ];
    Solid {
        points: (0..8).map(corner).collect(),
        faces: faces.iter().map(|f| f.to_vec()).collect(),
    }
}

/// Document 01's "box a..b".
pub fn cube(a: f64, b: f64) -> Solid {
    cuboid([a; 3], [b; 3])
}

/// The corner of a box, cut off by the plane through three of its neighbours.
pub fn tetrahedron(size: f64) -> Solid {
    Solid {
        points: vec![
            [0.0, 0.0, 0.0],
            [size, 0.0, 0.0],
            [0.0, size, 0.0],
            [0.0, 0.0, size],
        ],
        faces: vec![vec![0, 2, 1], vec![0, 1, 3], vec![0, 3, 2], vec![1, 2, 3]],
    }
}

/// Points around a circle of radius one, counter-clockwise, by IEEE operations alone.
fn ring(n: usize) -> Vec<[f64; 2]> {
    let on_square = |i: usize| {
        let t = (8 * i + 1) as f64 / n as f64;
        match t {
            t if t < 2.0 => [1.0, t - 1.0],
            t if t < 4.0 => [3.0 - t, 1.0],
            t if t < 6.0 => [-1.0, 5.0 - t],
            t => [t - 7.0, -1.0],
        }
    };
    let on_circle = |[x, y]: [f64; 2]| [x, y].map(|c| c / (x * x + y * y).sqrt());
    (0..n).map(on_square).map(on_circle).collect()
}

/// A prism over a polygon of n corners: 2n points, n + 2 faces.
pub fn prism(n: usize, radius: f64, height: f64) -> Solid {
    let level = |z: f64| {
        let at = move |[x, y]: [f64; 2]| [x * radius, y * radius, z];
        ring(n).into_iter().map(at)
    };
    let mut faces = vec![(0..n).rev().collect(), (n..2 * n).collect::<Vec<_>>()];
    for i in 0..n {
        let j = (i + 1) % n;
        faces.push(vec![i, j, n + j, n + i]);
    }
    Solid {
        points: level(0.0).chain(level(height)).collect(),
        faces,
    }
}

/// A pyramid over a polygon of n corners: n + 1 points, n + 1 faces, n of them at its top.
pub fn pyramid(n: usize, radius: f64, height: f64) -> Solid {
    let base = ring(n)
        .into_iter()
        .map(|[x, y]| [x * radius, y * radius, 0.0]);
    let mut faces = vec![(0..n).rev().collect::<Vec<_>>()];
    faces.extend((0..n).map(|i| vec![i, (i + 1) % n, n]));
    Solid {
        points: base.chain([[0.0, 0.0, height]]).collect(),
        faces,
    }
}

/// A box whose high z side is two faces: three faces at each point, two of them on one plane at two points.
pub fn split_box(low: Point, high: Point, share: f64) -> Solid {
    let mut solid = cuboid(low, high);
    let x = low[0] + share * (high[0] - low[0]);
    solid
        .points
        .extend([[x, low[1], high[2]], [x, high[1], high[2]]]);
    solid.faces[1] = vec![0, 1, 5, 8, 4];
    solid.faces[4] = vec![2, 6, 9, 7, 3];
    solid.faces[5] = vec![4, 8, 9, 6];
    solid.faces.push(vec![8, 5, 7, 9]);
    solid
}

/// The triangles of the convex hull of points in general position around the origin.
fn hull(points: &[Point]) -> Vec<[usize; 3]> {
    let above = |t: &[usize; 3], q: Point| {
        let [a, b, c] = t.map(|i| points[i]);
        dot(cross(sub(b, a), sub(c, a)), sub(q, a)) > 0.0
    };
    let mut triangles = vec![[0, 1, 2], [0, 2, 1]];
    for (i, &q) in points.iter().enumerate().skip(3) {
        let (seen, kept): (Vec<_>, Vec<_>) = triangles.iter().partition(|t| above(t, q));
        let edges: Vec<_> = seen.iter().flat_map(edges_of).collect();
        let rim = edges.iter().filter(|&&(a, b)| !edges.contains(&(b, a)));
        triangles = kept;
        triangles.extend(rim.map(|&(a, b)| [a, b, i]));
    }
    triangles
}

fn edges_of(&[a, b, c]: &[usize; 3]) -> [(usize, usize); 3] {
    [(a, b), (b, c), (c, a)]
}

/// The hull of n points of a sphere: 2n - 4 triangles, n from 4 to 34.
pub fn ball(random: &mut Random, n: usize) -> Solid {
    loop {
        let points: Vec<_> = (0..n).map(|_| random.direction()).collect();
        let faces: Vec<_> = hull(&points).iter().map(|t| t.to_vec()).collect();
        if faces.len() == 2 * n - 4 {
            return Solid { points, faces };
        }
    }
}

/// The solid under n planes that touch a sphere: n faces, 2n - 4 points, three faces at each.
pub fn gem(random: &mut Random, n: usize) -> Solid {
    loop {
        let normals: Vec<_> = (0..n).map(|_| random.direction()).collect();
        if let Some(solid) = polar(&normals) {
            return solid;
        }
    }
}

/// The polar of a hull around the origin; none where the hull does not hold it well inside.
fn polar(normals: &[Point]) -> Option<Solid> {
    let triangles = hull(normals);
    let mut points = Vec::new();
    for &[a, b, c] in &triangles {
        let n = cross(sub(normals[b], normals[a]), sub(normals[c], normals[a]));
        let height = dot(n, normals[a]);
        let q = scale(n, 1.0 / height);
        if height <= 0.0 || dot(q, q) > 64.0 {
            return None;
        }
        points.push(q);
    }
    let around = |i: usize| cycle_at(&triangles, i);
    let faces = (0..normals.len()).map(around).collect::<Option<_>>()?;
    Some(Solid { points, faces })
}

/// The triangles at a hull's vertex, in their turn around it.
fn cycle_at(triangles: &[[usize; 3]], vertex: usize) -> Option<Vec<usize>> {
    let leaving = |from: Option<usize>| {
        triangles.iter().enumerate().find_map(|(place, t)| {
            let k = t.iter().position(|&v| v == vertex)?;
            let (next, last) = (t[(k + 1) % 3], t[(k + 2) % 3]);
            (from.is_none() || from == Some(next)).then_some((place, last))
        })
    };
    let mut cycle = Vec::new();
    let mut at = leaving(None)?;
    while !cycle.contains(&at.0) {
        cycle.push(at.0);
        at = leaving(Some(at.1))?;
    }
    (cycle.len() >= 3).then_some(cycle)
}

/// The same faces over other points, or the same solid in another order.
pub trait Reshape {
    fn mapped(&self, f: impl Fn(Point) -> Point) -> Solid;

    fn shifted(&self, by: Point) -> Solid {
        self.mapped(|q| add(q, by))
    }

    fn scaled(&self, by: f64) -> Solid {
        self.mapped(|q| scale(q, by))
    }

    /// Turned about the z axis and then the x axis by the angles whose half has tangent t.
    fn turned(&self, t: f64) -> Solid {
        let (c, s) = ((1.0 - t * t) / (1.0 + t * t), 2.0 * t / (1.0 + t * t));
        let about_z = |[x, y, z]: Point| [c * x - s * y, s * x + c * y, z];
        let about_x = |[x, y, z]: Point| [x, c * y - s * z, s * y + c * z];
        self.mapped(|q| about_x(about_z(q)))
    }

    /// Points, faces and the starts of faces in another order.
    fn reordered(&self, random: &mut Random) -> Solid;
}

impl Reshape for Solid {
    fn mapped(&self, f: impl Fn(Point) -> Point) -> Solid {
        Solid {
            points: self.points.iter().map(|&q| f(q)).collect(),
            faces: self.faces.clone(),
        }
    }

    fn reordered(&self, random: &mut Random) -> Solid {
        let mut order: Vec<usize> = (0..self.points.len()).collect();
        random.shuffle(&mut order);
        let place = |i: &usize| order.iter().position(|o| o == i).expect("an order has all");
        let mut faces: Vec<Vec<usize>> = self
            .faces
            .iter()
            .map(|f| f.iter().map(place).collect())
            .collect();
        for face in &mut faces {
            let start = random.below(face.len());
            face.rotate_left(start);
        }
        random.shuffle(&mut faces);
        Solid {
            points: order.iter().map(|&i| self.points[i]).collect(),
            faces,
        }
    }
}
