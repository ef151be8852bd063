//! Jobs that show what users of fusing must know (the README's limits), each as small as it was found.
use crate::solid::{cube, cuboid};
use oracle::Operation::{Difference, Intersection, Union};
use oracle::{Job, Solid, Tolerances};

const LOCAL: f64 = Tolerances::USUAL.local;

fn unit() -> Solid {
    cube(0.0, 1.0)
}

/// A slab 3/2 of local thick that stands across the plane x = 0, away from the unit box.
fn slab() -> Solid {
    cuboid([-0.75 * LOCAL, 2.0, 0.0], [0.75 * LOCAL, 3.0, 1.0])
}

/// The unit box, its face at the highest y listed first.
fn high_y_first() -> Solid {
    let mut solid = unit();
    let first = solid.faces.remove(4);
    solid.faces.insert(0, first);
    solid
}

/// A slab 3 local thick about z = 0.
fn thick_slab() -> Solid {
    cuboid([0.0, 0.0, -1.5 * LOCAL], [1.0, 1.0, 1.5 * LOCAL])
}

/// A long block beside it whose top is three faces, nearly in one plane. Where the slab is, these planes lie at 0, 3/4 of local above and
/// 3/4 of local below.
fn roof() -> Solid {
    let outline = [
        [-1000.0, -4.25 * LOCAL],
        [-150.0, 0.0],
        [-50.0, 0.0],
        [-10.0, -0.6 * LOCAL],
        [-10.0, -5.0],
        [-1000.0, -5.0],
    ];
    let at = |y: f64| outline.map(|[x, z]| [x, y, z]);
    let side = |i: usize| vec![i, (i + 1) % 6, 6 + (i + 1) % 6, 6 + i];
    Solid {
        points: [at(0.0), at(1.0)].concat(),
        faces: [1, 0, 2, 3, 4, 5]
            .map(side)
            .into_iter()
            .chain([(0..6).rev().collect(), (6..12).collect()])
            .collect(),
    }
}

/// The unit box with its highest corner 3/5 of local higher, which is none of the first three of a face.
fn raised() -> Solid {
    let mut solid = unit();
    solid.points[7][2] += 0.6 * LOCAL;
    solid.faces[3] = vec![5, 1, 3, 7];
    solid.faces[4] = vec![3, 2, 6, 7];
    solid.faces[5] = vec![6, 4, 5, 7];
    solid
}

/// The unit box with a point in the middle of its edge at x = y = 1.
fn straight() -> Solid {
    let mut solid = unit();
    solid.points.push([1.0, 1.0, 0.5]);
    solid.faces[3] = vec![1, 3, 8, 7, 5];
    solid.faces[4] = vec![2, 6, 7, 8, 3];
    solid
}

/// A wedge whose slanting side is the plane x = y.
fn wedge() -> Solid {
    let level = |z: f64| [[-1.0, -1.0, z], [2.0, 2.0, z], [-1.0, 2.0, z]];
    let sides = (0..3).map(|i| vec![i, (i + 1) % 3, 3 + (i + 1) % 3, 3 + i]);
    Solid {
        points: [level(-1.0), level(2.0)].concat(),
        faces: [vec![2, 1, 0], vec![3, 4, 5]]
            .into_iter()
            .chain(sides)
            .collect(),
    }
}

/// The unit box with four triangles on top, one of them local/2 high.
fn flat_triangle() -> Solid {
    let mut solid = unit();
    solid.points.push([0.5, 0.5 * LOCAL, 1.0]);
    solid.faces.pop();
    solid
        .faces
        .extend([[4, 5, 8], [5, 7, 8], [7, 6, 8], [6, 4, 8]].map(Vec::from));
    solid
}

/// On top of the unit box, 3/4 of local too high and too wide.
fn misplaced() -> Solid {
    cuboid(
        [0.0, 0.0, 1.0 + 0.75 * LOCAL],
        [1.0, 1.0 + 0.75 * LOCAL, 2.0],
    )
}

/// A thin solid that vanishes: as second, as first, and what is left of it.
pub fn vanishing() -> [Job; 3] {
    let far = || Job::usual(slab(), unit(), Difference);
    [
        Job::usual(unit(), slab(), Union),
        Job::usual(slab(), unit(), Union),
        far(),
    ]
}

/// The thin solid that vanishes when fused, and as cells does not: the face that it lies beyond comes first.
pub fn kept_as_cell() -> Job {
    Job::usual(slab(), high_y_first(), Difference)
}

/// A slab 3 local thick that vanishes in parts.
pub fn swallowed() -> Job {
    Job::usual(thick_slab(), roof(), Difference)
}

/// A corner that was raised within the tolerance, and then merged with one that is higher still.
pub fn far_off_plane() -> Job {
    let above = cuboid([1.0, 1.0, 1.0 + 1.5 * LOCAL], [2.0; 3]);
    Job::usual(above, raised(), Union)
}

/// A straight run of corners on the edge where a cut ends.
pub fn straight_run() -> Job {
    Job::usual(straight(), wedge(), Intersection)
}

/// A vertex within local of the opposite edge of its own facet.
pub fn folded_facet() -> Job {
    Job::usual(flat_triangle(), cube(5.0, 6.0), Union)
}

/// Faces that are nearly, but not quite, in one plane: the answer has a facet that the mesh refuses.
pub fn off_plane() -> Job {
    Job::usual(unit(), misplaced(), Union)
}

/// The same, where the faces meet at a corner.
pub fn nearly_flush() -> Job {
    Job::usual(unit(), cuboid([0.5; 3], [1.0 + 0.75 * LOCAL; 3]), Union)
}

/// All of them.
pub fn all() -> Vec<Job> {
    let others = [
        kept_as_cell(),
        swallowed(),
        far_off_plane(),
        straight_run(),
        folded_facet(),
        off_plane(),
        nearly_flush(),
    ];
    vanishing().into_iter().chain(others).collect()
}
