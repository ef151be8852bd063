//! Document 01's pairs and what they give.
mod common;

use common::*;
use gen::solid::{cube, cuboid};
use oracle::{leaf, Body, Job, Lent, Operation, Sign, Solid};

fn fused(first: Solid, second: Solid, operation: Operation) -> Vec<Body> {
    let job = Job::usual(first, second, operation).bytes();
    oracle::fuse_bodies(&job, Lent::UNBOUNDED).expect("an answer")
}

/// For each body the facets of its shells.
fn shells(bodies: &[Body]) -> Vec<Vec<usize>> {
    let counts = |b: &Body| b.shells.iter().map(|s| s.facets.len()).collect();
    bodies.iter().map(counts).collect()
}

#[test]
fn p1_to_p3_side() {
    let at = |d: f64| leaf::side(&T, &plane_x(0.0), &[d, 0.0, 0.0]);
    assert_eq!(at(0.0), Ok(Sign::Zero));
    assert_eq!(at(LOCAL / 2.0), Ok(Sign::Zero));
    assert_eq!(at(LOCAL), Err(7));
    assert_eq!(at(2.0 * LOCAL), Ok(Sign::Positive));
}

#[test]
fn p4_to_p6_clip() {
    let cell = checked(&cube(0.0, 2.0));
    let cut = |x: f64| leaf::clip(&T, None, &cell, &plane_x(x)).expect("a cut");
    let half = cut(1.0).expect("a part");
    assert_eq!(half.len(), 6);
    let indexed = leaf::indexed(&T, &half).expect("points");
    assert_eq!(indexed.points.len(), 8);
    assert_eq!(bounds(&indexed.points), ([0.0; 3], [1.0, 2.0, 2.0]));
    let whole = cut(2.0).expect("a part");
    assert_eq!(format!("{whole:?}"), format!("{cell:?}"));
    assert!(cut(0.0).is_none());
}

#[test]
fn p7_intersection() {
    let job = Job::usual(cube(0.0, 2.0), cube(1.0, 3.0), Operation::Intersection).bytes();
    let cells = oracle::cells_solids(&job, Lent::UNBOUNDED).expect("an answer");
    assert_eq!(cells.len(), 1);
    assert_eq!((cells[0].points.len(), cells[0].faces.len()), (8, 6));
    assert_eq!(bounds(&cells[0].points), ([1.0; 3], [2.0; 3]));
    assert_eq!(volume6(&cells[0]), 6.0);
}

#[test]
fn p8_difference() {
    let job = Job::usual(cube(0.0, 2.0), cube(1.0, 3.0), Operation::Difference).bytes();
    let cells = oracle::cells_solids(&job, Lent::UNBOUNDED).expect("an answer");
    let volumes: Vec<_> = cells.iter().map(|c| volume6(c) / 6.0).collect();
    assert_eq!(volumes, [4.0, 2.0, 1.0]);
}

#[test]
fn p9_union() {
    let bodies = fused(cube(0.0, 2.0), cube(1.0, 3.0), Operation::Union);
    assert_eq!(shells(&bodies), [[42]]);
    let facets = &bodies[0].shells[0].facets;
    let mesh = |f: &oracle::Facet| {
        let file = facet_file(&f.plane, &f.points);
        oracle::mesh_triangles(&file, Some(128)).expect("triangles")
    };
    let triangles: usize = facets.iter().map(|f| mesh(f).len()).sum();
    assert_eq!(triangles, 84);
}

#[test]
fn p10_cavity() {
    let (outer, inner) = (cube(0.0, 3.0), cube(1.0, 2.0));
    let (a, b) = (checked(&outer), checked(&inner));
    let planes: Vec<_> = a.iter().chain(&b).map(|f| f.plane).collect();
    let pieces = leaf::difference(&T, None, &a, &b).expect("pieces");
    let arranged = leaf::split_cells(&T, None, &pieces, &planes).expect("cells");
    assert_eq!(arranged.len(), 26);
    let corners: Vec<_> = arranged.iter().flatten().flat_map(|f| &f.points).collect();
    let corners: Vec<_> = corners.into_iter().copied().collect();
    assert_eq!(leaf::unique(&T, &corners).expect("points").len(), 64);
    let bodies = fused(outer.clone(), inner.clone(), Operation::Difference);
    assert_eq!(shells(&bodies), [[54, 6]]);
    let job = Job::usual(outer, inner, Operation::Difference).bytes();
    let text = "answer 0\nbody 1 shells 2\nshell 1 outward facets 54\nshell 2 inward facets 6\n";
    assert_eq!(oracle::solidjob(&job), text);
}

#[test]
fn p11_edge_contact() {
    let second = cuboid([1.0, 1.0, 0.0], [2.0, 2.0, 1.0]);
    let bodies = fused(cube(0.0, 1.0), second, Operation::Union);
    assert_eq!(shells(&bodies), [[6], [6]]);
}

#[test]
fn p12_face_contact() {
    let second = cuboid([1.0, 0.0, 0.0], [2.0, 1.0, 1.0]);
    let bodies = fused(cube(0.0, 1.0), second.clone(), Operation::Union);
    assert_eq!(shells(&bodies), [[10]]);
    let job = Job::usual(cube(0.0, 1.0), second, Operation::Intersection).bytes();
    assert_eq!(oracle::solidjob(&job), "answer 0\n");
    assert_eq!(oracle::fuse(&job, Lent::UNBOUNDED), Ok(vec![]));
    assert_eq!(oracle::cells(&job, Lent::UNBOUNDED), Ok(vec![]));
}

#[test]
fn p13_offset() {
    let cell = cell_file(&cube(0.0, 2.0));
    let by = |d: f64| oracle::offset_solid(&cell, d, Lent::UNBOUNDED);
    let inner = by(-0.5).expect("an answer");
    assert_eq!(bounds(&inner.points), ([0.5; 3], [1.5; 3]));
    assert_eq!((inner.points.len(), inner.faces.len()), (8, 6));
    assert_eq!(by(-1.0).unwrap_err(), 4);
    assert_eq!(by(-2.0).unwrap_err(), 27);
}

#[test]
fn p14_mesh() {
    let square = [
        [0.0, 0.0, 0.0],
        [1.0, 0.0, 0.0],
        [1.0, 1.0, 0.0],
        [0.0, 1.0, 0.0],
    ];
    let z = [0.0, 0.0, 1.0];
    let plane = leaf::frame(&T, &square[0], &z, &square[1]).expect("a frame");
    let file = facet_file(&plane, &square);
    let triangles = oracle::mesh_triangles(&file, Some(4));
    assert_eq!(triangles, Ok(vec![[3, 0, 1], [1, 2, 3]]));
    let bytes: Vec<u8> = [3u32, 0, 1, 1, 2, 3]
        .iter()
        .flat_map(|i| i.to_le_bytes())
        .collect();
    assert_eq!(oracle::mesh(&file, Some(4)), Ok(bytes));
}

#[test]
fn faces_up_to_64_and_thin_walls() {
    let many = |n: usize| {
        oracle::offset(
            &cell_file(&gen::solid::prism(n, 1.0, 1.0)),
            0.0,
            Lent::UNBOUNDED,
        )
    };
    assert!(many(62).is_ok());
    assert_eq!(many(63), Err(3));
    let cell = cell_file(&cube(0.0, 2.0));
    assert_eq!(oracle::hollow(&cell, LINEAR, Lent::UNBOUNDED), Err(28));
    let bodies = oracle::hollow_bodies(&cell, 0.5, Lent::UNBOUNDED).expect("an answer");
    assert_eq!(shells(&bodies), [[6, 6]]);
}

/// The shells that `solidjob` prints for each file of jobs/.
const PRINTED: [(&str, &str); 7] = [
    ("p7.job", "body 1 shells 1\nshell 1 outward facets 6\n"),
    ("p8.job", "body 1 shells 1\nshell 1 outward facets 24\n"),
    ("p9.job", "body 1 shells 1\nshell 1 outward facets 42\n"),
    (
        "p10.job",
        "body 1 shells 2\nshell 1 outward facets 54\nshell 2 inward facets 6\n",
    ),
    (
        "p11.job",
        "body 1 shells 1\nshell 1 outward facets 6\nbody 2 shells 1\nshell 1 outward facets 6\n",
    ),
    ("p12.job", "body 1 shells 1\nshell 1 outward facets 10\n"),
    ("p12-intersection.job", ""),
];

#[test]
fn bodies_are_read_again() {
    for (name, job) in gen::pairs::files() {
        let bytes = oracle::fuse(&job.bytes(), Lent::UNBOUNDED).expect("an answer");
        let bodies = oracle::read_bodies(&bytes).expect("bodies");
        assert_eq!(oracle::bodies_bytes(&bodies), bytes, "{name}");
        let short = bytes.split_last().map(|(_, short)| short);
        assert!(short.is_none_or(|short| oracle::read_bodies(short).is_none()));
    }
}

#[test]
fn the_files_of_jobs() {
    let directory = std::path::Path::new(env!("CARGO_MANIFEST_DIR")).join("../../jobs");
    for ((name, job), (same, shells)) in gen::pairs::files().into_iter().zip(PRINTED) {
        assert_eq!(name, same);
        let bytes = std::fs::read(directory.join(name)).expect("a job file");
        assert_eq!(bytes, job.bytes(), "{name}");
        assert_eq!(oracle::solidjob(&bytes), format!("answer 0\n{shells}"));
    }
}
