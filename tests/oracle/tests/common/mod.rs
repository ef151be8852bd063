//! What the tests share: document 01's tolerances, and solids as the leaves take them.
#![allow(dead_code)] // each test file uses a part

use oracle::{leaf, Cell, CellFile, Face, FacetFile, Plane, Point, Solid, Tolerances};

pub const T: Tolerances = Tolerances::USUAL;
pub const LINEAR: f64 = T.linear;
pub const LOCAL: f64 = T.local;

/// The plane at x, normal +x, hint +y.
pub fn plane_x(x: f64) -> Plane {
    leaf::frame(&T, &[x, 0.0, 0.0], &[1.0, 0.0, 0.0], &[0.0, 1.0, 0.0]).expect("a frame")
}

pub fn checked(solid: &Solid) -> Cell {
    leaf::check(&T, solid, true).expect("a sound solid")
}

/// The bytes of a cell with the usual tolerances.
pub fn cell_file(solid: &Solid) -> Vec<u8> {
    let file = CellFile {
        tolerances: T,
        solid: solid.clone(),
    };
    file.bytes()
}

/// The bytes of a facet with the usual tolerances.
pub fn facet_file(plane: &Plane, points: &[Point]) -> Vec<u8> {
    let file = FacetFile {
        tolerances: T,
        facet: Face {
            plane: *plane,
            points: points.to_vec(),
        },
    };
    file.bytes()
}

/// Six times the volume of an indexed solid.
pub fn volume6(s: &Solid) -> f64 {
    let mut sum = 0.0;
    for f in &s.faces {
        for i in 1..f.len() - 1 {
            let [a, b, c] = [f[0], f[i], f[i + 1]].map(|k| s.points[k]);
            sum += gen::solid::dot(a, gen::solid::cross(b, c));
        }
    }
    sum
}

/// The least and the greatest coordinates of points.
pub fn bounds(points: &[[f64; 3]]) -> ([f64; 3], [f64; 3]) {
    let of = |pick: fn(f64, f64) -> f64| {
        std::array::from_fn(|k| points.iter().map(|q| q[k]).reduce(pick).expect("a point"))
    };
    (of(f64::min), of(f64::max))
}
