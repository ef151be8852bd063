//! Request 2/13: in an input face each three consecutive corners, round it, must not turn right.
mod common;

use common::*;
use gen::solid::{cube, cuboid, Reshape};
use gen::{damage, dents, Random};
use oracle::{leaf, Job, Lent, Operation, Outcome, Solid};

const FREE: Lent = Lent::UNBOUNDED;

fn refused<A>(outcome: Outcome<A>) -> u32 {
    outcome.err().unwrap_or(0)
}

fn number(solid: &Solid) -> u32 {
    refused(leaf::check(&T, solid, true))
}

#[test]
fn known_solids() {
    for (name, solid, wanted) in dents::known() {
        assert_eq!(number(&solid), wanted, "{name}: {:?}", solid.faces);
    }
}

/// The fused union and the cells' with a box beside, in either place, an offset and a hollow.
fn by_calls(solid: &Solid) -> [u32; 6] {
    let job = |a: &Solid, b: &Solid| Job::usual(a.clone(), b.clone(), Operation::Union).bytes();
    let (beside, cell) = (cube(5.0, 6.0), cell_file(solid));
    let (first, second) = (job(solid, &beside), job(&beside, solid));
    [
        refused(oracle::fuse(&first, FREE)),
        refused(oracle::fuse(&second, FREE)),
        refused(oracle::cells(&first, FREE)),
        refused(oracle::cells(&second, FREE)),
        refused(oracle::offset(&cell, 0.25, FREE)),
        refused(oracle::hollow(&cell, 0.25, FREE)),
    ]
}

#[test]
fn every_call_refuses_a_dent() {
    assert_eq!(by_calls(&damage::dented()), [4; 6]);
    assert_eq!(by_calls(&dents::wedge(256.0, 0.0)), [33; 6]);
    // where the run begins, two of the three faces are in one plane
    assert_eq!(by_calls(&damage::straightened()), [0, 0, 0, 0, 25, 25]);
}

/// The same with one face listed first.
fn first(solid: &Solid, face: usize) -> Solid {
    let mut solid = solid.clone();
    solid.faces[..=face].rotate_right(1);
    solid
}

#[test]
fn after_the_sides_of_the_same_face_and_before_the_next() {
    let mut dented = damage::dented();
    // just local off the plane of the face 1, 3, 7, 5
    dented.points[5][0] -= LOCAL;
    assert_eq!([3, 5].map(|face| number(&first(&dented, face))), [7, 4]);
    let mut unsure = dents::wedge(256.0, 0.0);
    // just local off the plane of the face 0, 1, 5, 4
    unsure.points[4][1] += LOCAL;
    assert_eq!([2, 0].map(|face| number(&first(&unsure, face))), [7, 33]);
    let mut both = damage::dented();
    // just local off the plane of the L
    both.points[9][2] -= LOCAL;
    assert_eq!(number(&first(&both, 5)), 7);
}

#[test]
fn what_is_built_is_not_tested() {
    for solid in [damage::dented(), dents::wedge(256.0, 0.0)] {
        assert!(leaf::check(&T, &solid, false).is_ok());
    }
    let wedge = dents::wedge(1.0, 2f64.powi(-52));
    let corner = cuboid([-2.0; 3], [0.125, 0.0625, 0.75]);
    let job = Job::usual(wedge, corner, Operation::Difference).bytes();
    let cells = oracle::cells_solids(&job, FREE).expect("an answer");
    // the first, given again, is refused
    assert_eq!(cells.iter().map(number).collect::<Vec<_>>(), [4, 0, 0]);
}

/// A box with a point at 0.3 of an edge, turned in space 300 times: how many pass; the others are 4.
#[test]
fn a_straight_run_on_a_slanted_face_seldom_passes() {
    let boxed = dents::run(&cube(0.0, 1.0), 2, 1, &[0.3]);
    assert_eq!(number(&boxed), 0);
    let passed = |size: f64| {
        let mut random = Random::new(1);
        let mut turned = || {
            let (a, b) = (random.signed(), random.signed());
            number(&boxed.scaled(size).turned(a).turned(b))
        };
        let numbers: Vec<_> = (0..300).map(|_| turned()).collect();
        assert!(numbers.iter().all(|n| [0, 4].contains(n)));
        numbers.iter().filter(|&&n| n == 0).count()
    };
    assert_eq!([1.0, 3.0, 1e3, 1e5].map(passed), [88, 80, 85, 74]);
}

/// A run that goes back over itself is as straight as one that does not; fusing refuses it, and a cut across it.
#[test]
fn a_straight_run_may_turn_back() {
    let back = dents::run(&cube(0.0, 2.0), 3, 1, &[0.75, 0.25]);
    assert_eq!(number(&back), 0);
    assert_eq!(by_calls(&back), [20, 20, 0, 0, 24, 24]);
    let half = cuboid([-1.0; 3], [3.0, 3.0, 1.0]);
    let job = Job::usual(back, half, Operation::Intersection).bytes();
    assert_eq!(refused(oracle::cells(&job, FREE)), 4);
}
