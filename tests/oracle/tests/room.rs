//! 12: the room is counted in corners, as each face, cell or facet is added.
mod common;

use common::*;
use gen::solid::{cube, cuboid, prism};
use gen::{cells, jobs, Random};
use oracle::{leaf, Call, Cell, Face, Job, Lent, Operation, Outcome, CORNER_BYTES};

fn cut(cell: &Cell, x: f64, room: usize) -> Outcome<Option<Cell>> {
    leaf::clip(&T, Some(room), cell, &plane_x(x))
}

#[test]
fn a_cut_and_a_cell_left_whole() {
    let cell = checked(&cube(0.0, 2.0));
    for x in [1.0, 2.0] {
        assert!(cut(&cell, x, 24).is_ok());
        assert_eq!(cut(&cell, x, 23).err(), Some(12));
    }
    assert!(matches!(cut(&cell, 0.0, 0), Ok(None)));
}

/// A face of n corners on the plane z = 0, and far corners on both sides of x = 0.
fn comb(n: usize) -> Cell {
    let mut plane = plane_x(0.0);
    plane[9..].copy_from_slice(&[0.0, 0.0, 1.0]);
    let corner = |i: usize| [if i.is_multiple_of(2) { -1.0 } else { 1.0 }, i as f64, 0.0];
    vec![Face {
        plane,
        points: (0..n).map(corner).collect(),
    }]
}

#[test]
fn a_face_its_129th_corner_and_a_cap_its_1025th_point() {
    let first = |n: usize| leaf::clip(&T, Some(100_000), &comb(n), &plane_x(0.0));
    assert_eq!(first(84).err(), Some(10));
    assert_eq!(first(86).err(), Some(12));
    let free = leaf::clip(&T, None, &comb(86), &plane_x(0.0));
    assert_eq!(free.err(), Some(10));
    let faces = |n: usize| (0..n).flat_map(|_| comb(8)).collect::<Cell>();
    assert_eq!(cut(&faces(128), 0.0, 100_000).err(), Some(10));
    assert_eq!(cut(&faces(129), 0.0, 100_000).err(), Some(12));
}

#[test]
fn a_cell_its_129th_face() {
    let many = |n: usize| (0..n).flat_map(|_| comb(4)).collect::<Cell>();
    assert!(cut(&many(128), 5.0, 512).is_ok());
    assert_eq!(cut(&many(128), 5.0, 511).err(), Some(12));
    assert_eq!(cut(&many(129), 5.0, 100_000).err(), Some(12));
    assert!(leaf::clip(&T, None, &many(129), &plane_x(5.0)).is_ok());
}

#[test]
fn a_list_of_cells() {
    let (a, b) = (checked(&cube(0.0, 2.0)), checked(&cube(1.0, 3.0)));
    assert_eq!(
        leaf::difference(&T, Some(72), &a, &b).expect("cells").len(),
        3
    );
    assert_eq!(leaf::difference(&T, Some(71), &a, &b).err(), Some(12));
    let job = |operation| Job::usual(cube(0.0, 2.0), cube(1.0, 3.0), operation).bytes();
    let cells = |operation, room| oracle::cells(&job(operation), Lent::even(room)).err();
    assert_eq!(cells(Operation::Union, 95), Some(12));
    assert_eq!(cells(Operation::Union, 96), None);
    assert_eq!(cells(Operation::Intersection, 24), None);
    assert_eq!(cells(Operation::Intersection, 23), Some(12));
}

#[test]
fn the_facets_after_conform() {
    let job = Job::usual(cube(0.0, 3.0), cube(1.0, 2.0), Operation::Difference).bytes();
    let fused = |room| oracle::fuse(&job, Lent::even(room)).err();
    assert_eq!(fused(624), None);
    assert_eq!(fused(623), Some(12));
    let beside = cuboid([1.0, 0.0, 0.0], [2.0, 1.0, 1.0]);
    let apart = Job::usual(cube(0.0, 1.0), beside, Operation::Union).bytes();
    assert_eq!(oracle::fuse(&apart, Lent::even(48)).err(), None);
    assert_eq!(oracle::fuse(&apart, Lent::even(47)).err(), Some(12));
}

#[test]
fn the_answer_of_an_offset_or_a_hollow_last_of_all() {
    let cell = cell_file(&cube(0.0, 2.0));
    assert_eq!(oracle::offset(&cell, 0.5, Lent::even(24)).err(), None);
    assert_eq!(oracle::offset(&cell, 0.5, Lent::even(23)).err(), Some(12));
    assert_eq!(oracle::offset(&cell, -2.0, Lent::even(23)).err(), Some(27));
    assert_eq!(oracle::hollow(&cell, 0.5, Lent::even(48)).err(), None);
    assert_eq!(oracle::hollow(&cell, 0.5, Lent::even(47)).err(), Some(12));
    assert_eq!(
        oracle::hollow(&cell, 2.0 * LINEAR, Lent::even(1)).err(),
        Some(29)
    );
}

#[test]
fn a_small_answer_comes_before_the_tolerances() {
    let cell = cell_file(&prism(5, 1.0, 1.0));
    let lent = |room, answer| Lent {
        room: Some(room),
        answer: Some(answer),
    };
    assert_eq!(oracle::offset(&cell, 0.5, lent(720, 719)).err(), Some(12));
    assert_eq!(oracle::offset(&cell, 0.5, lent(720, 720)).err(), None);
}

fn fits(call: Call, given: &[u8], corners: usize) -> bool {
    call.answer(given, corners, CORNER_BYTES * corners) != Err(12)
}

#[test]
fn the_least_room() {
    let job = Job::usual(cube(0.0, 3.0), cube(1.0, 2.0), Operation::Difference).bytes();
    assert_eq!(Call::Fuse.least_room(&job), 624);
    let cell = cell_file(&cube(0.0, 2.0));
    assert_eq!(Call::Offset(0.5).least_room(&cell), 24);
    assert_eq!(Call::Hollow(0.5).least_room(&cell), 48);
    assert_eq!(Call::Hollow(LINEAR).least_room(&cell), 0);
    for seed in 0..300 {
        let mut random = Random::new(seed);
        let (job, moved) = (jobs::any(&mut random).bytes(), cells::any(&mut random));
        let cell = moved.cell.bytes();
        let calls = [
            (Call::Fuse, &job),
            (Call::Cells, &job),
            (Call::Offset(moved.by), &cell),
            (Call::Hollow(moved.by), &cell),
        ];
        for (call, given) in calls {
            let least = call.least_room(given);
            assert!(fits(call, given, least), "{call:?} {seed}");
            assert!(
                least == 0 || !fits(call, given, least - 1),
                "{call:?} {seed}"
            );
        }
    }
}

#[test]
fn the_answer_room_is_a_64th_of_the_bytes() {
    let cell = cell_file(&cube(0.0, 2.0));
    let offset = |memory| Call::Offset(0.5).answer(&cell, 24, memory).err();
    assert_eq!(offset(24 * 64), None);
    assert_eq!(offset(24 * 64 - 1), Some(12));
    assert_eq!(Call::Offset(f64::NAN).answer(&cell, 0, 0), Err(2));
    assert_eq!(Call::Offset(0.5).answer(&cell, 0, 0), Err(12));
    let plane = plane_x(0.0);
    let square = [[0.0, 0.0, 0.0], [0.0, 1.0, 0.0], [0.0, 1.0, 1.0]];
    let facet = facet_file(&plane, &square);
    let mesh = |memory| Call::Mesh.answer(&facet, 0, memory).err();
    assert_eq!(mesh(3 * 64 - 1), Some(12));
    assert_eq!(mesh(3 * 64), None);
}

#[test]
fn every_answer_fits_its_answer_room() {
    for seed in 0..200 {
        let job = jobs::any(&mut Random::new(seed)).bytes();
        for call in [Call::Fuse, Call::Cells] {
            let least = call.least_room(&job);
            let answer = call.answer(&job, least, CORNER_BYTES * least);
            assert!(answer.map_or(0, |bytes| bytes.len()) <= CORNER_BYTES * least);
        }
    }
}

#[test]
fn a_room_ends_with_its_call() {
    let cell = checked(&cube(0.0, 2.0));
    assert_eq!(cut(&cell, 1.0, 0).err(), Some(12));
    assert!(leaf::clip(&T, None, &cell, &plane_x(1.0)).is_ok());
}
