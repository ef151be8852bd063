//! Each refusal number of document 01, by a call or by a direct call of its step. 8 is never given.
mod common;

use common::*;
use gen::solid::{cube, cuboid, prism, tetrahedron};
use gen::Random;
use oracle::{
    join, leaf, Cell, Face, Interval, Job, Lent, Operation, Outcome, Plane, Point, Sign, Solid,
    Tolerances,
};

const FREE: Lent = Lent::UNBOUNDED;

fn box_job() -> Job {
    Job::usual(cube(0.0, 2.0), cube(1.0, 3.0), Operation::Union)
}

fn fused(job: &Job) -> Outcome<Vec<u8>> {
    oracle::fuse(&job.bytes(), FREE)
}

fn offset(solid: &Solid, by: f64) -> Outcome<Vec<u8>> {
    oracle::offset(&cell_file(solid), by, FREE)
}

fn check(solid: &Solid) -> Outcome<Cell> {
    leaf::check(&T, solid, true)
}

fn refused<T>(outcome: Outcome<T>) -> u32 {
    outcome.err().expect("a refusal")
}

/// Loose faces over one plane, as cells of an arrangement.
fn loose(faces: &[&[Point]]) -> Cell {
    let face = |points: &&[Point]| Face {
        plane: plane_x(0.0),
        points: points.to_vec(),
    };
    faces.iter().map(face).collect()
}

fn fuse_loose(cells: &[Cell]) -> u32 {
    refused(leaf::fuse_cells(&T, None, cells))
}

const O: Point = [0.0, 0.0, 0.0];
const X: Point = [1.0, 0.0, 0.0];
const Y: Point = [0.0, 1.0, 0.0];
const Z: Point = [0.0, 0.0, 1.0];
const XY: Point = [1.0, 1.0, 0.0];

#[test]
fn one_reads_whole_first() {
    let good = box_job().records();
    let bytes = join(&good);
    for length in 0..bytes.len() {
        assert_eq!(oracle::fuse(&bytes[..length], FREE), Err(1));
    }
    let longer = [bytes.as_slice(), &[5]].concat();
    assert_eq!(oracle::fuse(&longer, FREE), Err(1));
    for kind in [0, 7, 8, 9, 255] {
        let mut records = good.clone();
        records[3].kind = kind;
        assert_eq!(oracle::fuse(&join(&records), FREE), Err(1));
    }
    for operation in [0, 4, 255] {
        let mut records = good.clone();
        records.last_mut().expect("a record").body = vec![operation];
        assert_eq!(oracle::fuse(&join(&records), FREE), Err(1));
    }
}

#[test]
fn one_for_more_than_32768_bytes() {
    assert_eq!(fused_length(32_768), 3);
    assert_eq!(fused_length(32_769), 1);
}

/// The refusal of a job in order of just this many bytes.
fn fused_length(length: usize) -> u32 {
    let bytes = gen::damage::sized(&box_job(), length);
    assert_eq!(bytes.len(), length);
    refused(oracle::fuse(&bytes, FREE))
}

#[test]
fn two_for_tolerances_and_numbers() {
    let ends = [2f64.powi(-40), 2f64.powi(-4)];
    let bad = [
        (ends[0].next_down(), ends[1]),
        (ends[0], ends[1].next_up()),
        (LOCAL, LINEAR),
        (f64::NAN, LOCAL),
        (LINEAR, f64::NAN),
    ];
    for (linear, local) in bad {
        let mut job = box_job();
        job.tolerances = Tolerances { linear, local };
        assert_eq!(fused(&job), Err(2));
    }
    for x in [f64::NAN, f64::INFINITY, 1_048_576f64.next_up()] {
        let mut job = box_job();
        job.second.points[5][1] = -x;
        assert_eq!(fused(&job), Err(2));
    }
    assert_eq!(offset(&cube(0.0, 2.0), f64::NAN), Err(2));
    assert_eq!(offset(&cube(0.0, 1_048_576.0), 1.0), Err(2));
}

#[test]
fn three_for_counts() {
    assert_eq!(refused(check(&prism(63, 1.0, 1.0))), 3);
    let mut points = cube(0.0, 2.0);
    points.points.resize(129, [0.0; 3]);
    assert_eq!(refused(check(&points)), 3);
    let mut nothing = cube(0.0, 2.0);
    nothing.faces.clear();
    assert_eq!(refused(check(&nothing)), 3);
    let mut corner = cube(0.0, 2.0);
    corner.faces[2].clear();
    assert_eq!(refused(check(&corner)), 3);
}

#[test]
fn four_for_the_solid() {
    let damaged = |damage: fn(&mut Solid)| {
        let mut solid = cube(0.0, 2.0);
        damage(&mut solid);
        refused(check(&solid))
    };
    assert_eq!(damaged(|s| s.faces[0][2] = 8), 4);
    assert_eq!(damaged(|s| s.faces[0].push(6)), 4);
    assert_eq!(damaged(|s| s.points.push([1.0; 3])), 4);
    assert_eq!(damaged(|s| s.faces[0].reverse()), 4);
    assert_eq!(damaged(|s| s.faces.iter_mut().for_each(|f| f.reverse())), 4);
    assert_eq!(damaged(|s| s.points[7] = [1.0; 3]), 4);
    let mut two = cube(0.0, 2.0);
    let other = cube(4.0, 6.0);
    two.points.extend(other.points);
    let moved = |f: &Vec<usize>| f.iter().map(|i| i + 8).collect();
    two.faces
        .extend(other.faces.iter().map(moved).collect::<Vec<_>>());
    assert_eq!(refused(check(&two)), 4);
}

#[test]
fn five_before_near_points() {
    assert_eq!(refused(check(&cube(0.0, 2f64.powi(-10)))), 5);
    let mut doubled = cube(0.0, 2.0);
    doubled.points[4] = doubled.points[0];
    assert_eq!(refused(check(&doubled)), 5);
}

#[test]
fn six_for_near_unresolved() {
    let at = |d: f64| leaf::near(&T, &O, &[d, 0.0, 0.0]);
    assert_eq!(at(LOCAL / 2.0), Ok(true));
    assert_eq!(at(LOCAL), Err(6));
    assert_eq!(at(2.0 * LOCAL), Ok(false));
    let hit_then_open = [O, [1.5 * LOCAL, 0.0, 0.0], [LOCAL / 2.0, 0.0, 0.0]];
    assert_eq!(leaf::unique(&T, &hit_then_open).unwrap_err(), 6);
}

#[test]
fn seven_for_a_side() {
    let mut solid = cube(0.0, 2.0);
    solid.points[5][0] += LOCAL;
    assert_eq!(refused(check(&solid)), 7);
}

#[test]
fn nine_for_a_cut_point() {
    let t = Tolerances {
        linear: 2f64.powi(-40),
        local: 2f64.powi(-40),
    };
    let mut random = Random::new(9);
    let mut nines = 0;
    for _ in 0..100 {
        let (a, b) = (-1e6 * random.unit(), 1e6 * random.unit());
        let cell = leaf::check(&t, &cuboid([a; 3], [b; 3]), true).expect("a box");
        nines += u32::from(leaf::clip(&t, None, &cell, &plane_x(0.1)).err() == Some(9));
    }
    assert!(nines > 0);
}

#[test]
fn ten_for_a_cap() {
    let plane = plane_x(0.0);
    let hull = |list: &[Point]| refused(leaf::hull(&T, &plane, list));
    assert_eq!(hull(&[O, Y, Y]), 10);
    assert_eq!(hull(&[O, Y, [0.0, 2.0, 0.0]]), 10);
    let mut wild: Plane = plane;
    wild[3] = f64::INFINITY;
    assert_eq!(refused(leaf::hull(&T, &wild, &[O, Y, Z])), 10);
}

#[test]
fn eleven_for_cells() {
    let cell = checked(&cube(0.0, 9.0));
    let mut planes = Vec::new();
    for axis in 0..3 {
        let unit = |k: usize| std::array::from_fn(|i| f64::from(u8::from(i == k % 3)));
        for i in 1..=8 {
            let origin = unit(axis).map(|x: f64| x * f64::from(i));
            planes.push(leaf::frame(&T, &origin, &unit(axis), &unit(axis + 1)).expect("a frame"));
        }
    }
    let split = |n: usize| leaf::split_cells(&T, None, std::slice::from_ref(&cell), &planes[..n]);
    assert_eq!(split(21).expect("cells").len(), 9 * 9 * 6);
    assert_eq!(refused(split(22)), 11);
}

#[test]
fn thirteen_and_fourteen_for_vertices() {
    let (a, b, c) = (O, [1.5 * LOCAL, 0.0, 0.0], [0.75 * LOCAL, 0.0, 0.0]);
    assert_eq!(fuse_loose(&[loose(&[&[a, b, Y], &[c, Y, Z]])]), 13);
    let corner = |i: usize| [i as f64, 0.0, 0.0];
    let many: Vec<Point> = (0..4097).map(corner).collect();
    let faces: Vec<_> = many.chunks(64).collect();
    assert_eq!(fuse_loose(&[loose(&faces)]), 14);
}

#[test]
fn fifteen_to_seventeen_for_edges() {
    let conform = |list: &[Point]| leaf::conform(&T, list, &[0, 1, 2]);
    assert_eq!(conform(&[O, [LINEAR / 2.0, 0.0, 0.0], Y]).unwrap_err(), 15);
    let open = [0.5, -LOCAL, 0.0];
    assert_eq!(conform(&[O, X, Y, open]).unwrap_err(), 16);
    let (a, b) = ([0.5, 0.0, 0.0], [0.5, LOCAL / 2.0, 0.0]);
    assert_eq!(conform(&[O, X, Y, a, b]).unwrap_err(), 17);
    let through = conform(&[O, X, Y, [0.75, 0.0, 0.0], [0.25, 0.0, 0.0]]);
    assert_eq!(through, Ok(vec![0, 4, 3, 1, 2]));
}

#[test]
fn eighteen_and_nineteen_for_interfaces() {
    let up: &[Point] = &[O, X, Y];
    let down: &[Point] = &[O, Y, X];
    assert_eq!(fuse_loose(&[loose(&[up, down])]), 18);
    assert_eq!(fuse_loose(&[loose(&[up]), loose(&[up])]), 18);
    assert_eq!(
        fuse_loose(&[loose(&[up]), loose(&[down]), loose(&[up])]),
        19
    );
}

#[test]
fn twenty_to_twenty_three_for_boundaries() {
    assert_eq!(fuse_loose(&[loose(&[&[O, X, Y]])]), 20);
    let flat: [&[Point]; 4] = [&[O, X, XY], &[O, XY, Y], &[O, Y, X], &[X, Y, XY]];
    assert_eq!(fuse_loose(&[loose(&flat)]), 21);
    let out: [&[Point]; 4] = [&[O, Y, X], &[O, X, Z], &[O, Z, Y], &[X, Y, Z]];
    let mut two = loose(&out);
    let far = |f: &Face| Face {
        plane: f.plane,
        points: f.points.iter().map(|q| q.map(|x| x + 4.0)).collect(),
    };
    two.extend(loose(&out).iter().map(far));
    assert_eq!(fuse_loose(&[two]), 22);
    let mut inward = loose(&out);
    inward.iter_mut().for_each(|f| f.points.reverse());
    assert_eq!(fuse_loose(&[inward]), 23);
}

/// The lists that the port is asked too.
#[test]
fn each_refusal_of_a_list() {
    for (number, list) in gen::lists::refused() {
        let told = leaf::fuse_cells(&list.tolerances, Some(list.room), &list.cells);
        assert_eq!(refused(told), number);
    }
}

#[test]
fn jobs_that_few_others_reach() {
    for (job, number) in gen::jobs::rare() {
        assert_eq!(fused(&job), Err(number));
    }
}

#[test]
fn twenty_four_to_twenty_seven_for_offsets() {
    let mut random = Random::new(24);
    assert_eq!(offset(&gen::solid::ball(&mut random, 12), 0.1), Err(24));
    let mut flat = checked(&cube(0.0, 2.0));
    let first = flat[0].plane;
    flat.iter_mut().for_each(|f| f.plane = first);
    assert_eq!(refused(leaf::offset_distances(&T, &flat, &[0.1; 6])), 25);
    assert_eq!(offset(&tetrahedron(1.0), 1e12), Err(26));
    assert_eq!(offset(&cube(0.0, 2.0), -2.0), Err(27));
}

#[test]
fn twenty_eight_and_twenty_nine_for_hollows() {
    let cell = cell_file(&cube(0.0, 2.0));
    let wall = |w: f64| oracle::hollow(&cell, w, FREE);
    for w in [f64::NAN, f64::INFINITY, -1.0, LINEAR] {
        assert_eq!(wall(w), Err(28));
    }
    assert_eq!(wall(2.0 * LINEAR), Err(29));
}

fn mesh(points: &[Point]) -> Outcome<Vec<[usize; 3]>> {
    let plane = leaf::frame(&T, &O, &Z, &X).expect("a frame");
    oracle::mesh_triangles(&facet_file(&plane, points), Some(128))
}

#[test]
fn thirty_to_thirty_three_for_the_mesh() {
    assert_eq!(mesh(&[O, XY, X, Y]), Err(30));
    assert_eq!(mesh(&[O, [2.0, 0.0, 0.0], X, Y]), Err(30));
    assert_eq!(mesh(&[O, Y, XY, X]), Err(31));
    assert_eq!(mesh(&[O, Y, X]), Err(32));
    assert_eq!(mesh(&[O, [1e4, 3e3, 0.0], [2e4, 6e3, 0.0]]), Err(33));
    assert_eq!(mesh(&[O, X]), Err(3));
    assert_eq!(mesh(&[O, X, [f64::NAN, 0.0, 0.0]]), Err(2));
    assert_eq!(mesh(&[O; 129]), Err(12));
}

#[test]
fn thirty_four_for_a_plane() {
    let mut plane = leaf::frame(&T, &O, &Z, &X).expect("a frame");
    plane[9..].copy_from_slice(&[0.0, 0.0, -1.0]);
    let file = facet_file(&plane, &[O, X]);
    assert_eq!(oracle::mesh_triangles(&file, Some(128)), Err(34));
    assert_eq!(leaf::reciprocal(Interval::ends(0.0, 1.0)).unwrap_err(), 34);
    let unbounded = leaf::reciprocal(Interval::ends(f64::from_bits(1), 1.0)).expect("kept");
    assert_eq!(unbounded.hi(), f64::INFINITY);
}

#[test]
fn the_order_of_a_call() {
    let small = Lent {
        room: Some(8),
        answer: Some(7),
    };
    let mut job = box_job();
    job.tolerances.linear = f64::NAN;
    assert_eq!(oracle::fuse(&job.bytes()[1..], small), Err(1));
    assert_eq!(oracle::fuse(&job.bytes(), small), Err(12));
    assert_eq!(oracle::fuse(&job.bytes(), Lent::even(8)), Err(2));
    let bad = cell_file(&prism(63, 1.0, 1.0));
    assert_eq!(oracle::hollow(&bad, 0.0, FREE), Err(28));
    assert_eq!(oracle::offset(&bad, f64::NAN, FREE), Err(3));
    let mut both = box_job();
    both.first.faces.clear();
    both.second.points[0][0] = f64::NAN;
    assert_eq!(fused(&both), Err(3));
    both.first.points[0][0] = f64::NAN;
    assert_eq!(fused(&both), Err(2));
}

#[test]
fn the_sign_of_an_interval() {
    let sign = |lo, hi| Interval::ends(lo, hi).sign();
    assert_eq!(sign(-0.0, 0.0), Some(Sign::Zero));
    assert_eq!(sign(0.0, 1.0), None);
    assert_eq!(sign(f64::from_bits(1), 1.0), Some(Sign::Positive));
    let widened = Interval::point(0.0) + Interval::point(0.0);
    assert_eq!(widened.sign(), None);
}
