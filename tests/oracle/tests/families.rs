//! The generator's families through the oracle: every outcome that they aim at is met, and what
//! must hold of every answer holds.
mod common;

use common::*;
use gen::{calls, cells, damage, facets, jobs, leaves, solid, Random};
use oracle::{leaf, Call, Cell, Face, Interval, Lent, Outcome, Sign, Tolerances};
use std::collections::BTreeSet;

fn number<T>(outcome: &Outcome<T>) -> u32 {
    outcome.as_ref().err().copied().unwrap_or(0)
}

/// The numbers that a work gives over many seeds.
fn numbers(times: u64, mut work: impl FnMut(&mut Random) -> u32) -> BTreeSet<u32> {
    (0..times)
        .map(|seed| work(&mut Random::new(seed)))
        .collect()
}

fn require(met: &BTreeSet<u32>, wanted: &[u32]) {
    for n in wanted {
        assert!(met.contains(n), "{n} is not among {met:?}");
    }
}

/// A call without a room, and the same with one: equal, or 12.
fn with_and_without(call: impl Fn(Lent) -> Outcome<Vec<u8>>, room: usize) -> u32 {
    let free = call(Lent::UNBOUNDED);
    let lent = call(Lent::even(room));
    assert!(lent == free || lent == Err(12));
    assert_eq!(call(Lent::even(usize::MAX)), free);
    number(&free)
}

#[test]
fn whole_jobs() {
    let met = numbers(400, |random| {
        let job = jobs::any(random).bytes();
        let room = random.pick(&[24, 100, 720, 4000]);
        oracle::cells(&job, Lent::even(room)).ok();
        number(&oracle::fuse(&job, Lent::even(room)))
    });
    require(&met, &[0, 4, 5, 7, 10, 12, 20]);
    let met = numbers(200, |random| {
        let job = jobs::edge_contact(random).bytes();
        with_and_without(|lent| oracle::fuse(&job, lent), 100)
    });
    require(&met, &[0, 6]);
    let met = numbers(400, |random| {
        let job = jobs::thin(random).bytes();
        with_and_without(|lent| oracle::cells(&job, lent), 60)
    });
    require(&met, &[0, 4, 5, 6]);
}

#[test]
fn boxes_in_lattice_positions() {
    for index in (0..jobs::LATTICE).step_by(7) {
        let job = jobs::lattice(index).bytes();
        assert!(oracle::fuse(&job, Lent::UNBOUNDED).is_ok(), "{index}");
    }
}

#[test]
fn damaged_jobs() {
    let met = numbers(1500, |random| {
        let job = jobs::lattice(random.below(jobs::LATTICE));
        let bytes = damage::any(random, &job);
        with_and_without(|lent| oracle::fuse(&bytes, lent), 720)
    });
    require(&met, &[0, 1, 2, 3, 4, 5, 7]);
    for solid in damage::counts() {
        let n = number(&leaf::check(&T, &solid, true));
        assert!([0, 3, 4].contains(&n));
    }
    assert_eq!(number(&leaf::check(&T, &damage::dented(), true)), 4);
    checked(&damage::straightened());
}

#[test]
fn offsets_hollows_and_meshes() {
    let met = numbers(800, |random| {
        let moved = cells::any(random);
        let cell = moved.cell.bytes();
        with_and_without(|lent| oracle::offset(&cell, moved.by, lent), 100)
    });
    require(&met, &[0, 2, 4, 5, 24, 26, 27]);
    let met = numbers(800, |random| {
        let moved = match random.coin() {
            true => cells::any(random),
            false => cells::box_near_half(random),
        };
        let cell = moved.cell.bytes();
        with_and_without(|lent| oracle::hollow(&cell, moved.by, lent), 100)
    });
    require(&met, &[0, 4, 5, 7, 24, 26, 27, 28, 29]);
    let met = numbers(2000, |random| {
        let facet = facets::any(random);
        number(&oracle::mesh(&facet.bytes(), Some(128)))
    });
    require(&met, &[0, 2, 3, 30, 31, 32, 33, 34]);
    let ends = facets::counts();
    let of = |f: &oracle::FacetFile| number(&oracle::mesh(&f.bytes(), Some(128)));
    assert_eq!(ends.iter().map(of).filter(|&n| n == 12).count(), 2);
}

#[test]
fn pyramids_and_split_sides_are_sound() {
    for n in 3..=8 {
        checked(&solid::pyramid(n, 1.0, 1.0));
    }
    let split = solid::split_box([0.0; 3], [1.0, 2.0, 3.0], 0.25);
    checked(&split);
    let by = |distance: f64| oracle::offset(&cell_file(&split), distance, Lent::UNBOUNDED);
    assert_eq!(by(0.25), Err(25));
}

/// The number of a question with its room and its answer memory.
fn asked(q: &calls::Question) -> u32 {
    number(&q.call.answer(&q.given, q.corners, q.memory))
}

#[test]
fn families_of_the_calls() {
    let met = numbers(4000, |random| {
        let job = (jobs::FAMILIES[random.below(jobs::FAMILIES.len())].make)(random);
        let bytes = match random.below(3) {
            0 => damage::any(random, &job),
            _ => job.bytes(),
        };
        asked(&calls::lent(random, Call::Cells, bytes))
    });
    require(&met, &[0, 1, 2, 3, 4, 5, 6, 7, 9, 12, 33]);
    let kinds: [fn(f64) -> Call; 2] = [Call::Offset, Call::Hollow];
    let moves = kinds.map(|call| {
        numbers(4000, |random| {
            let moved = (cells::FAMILIES[random.below(cells::FAMILIES.len())].make)(random);
            let bytes = match random.below(3) {
                0 => damage::any_cell(random, &moved.cell),
                _ => moved.cell.bytes(),
            };
            asked(&calls::lent(random, call(moved.by), bytes))
        })
    });
    require(&moves[0], &[0, 1, 2, 3, 4, 5, 6, 7, 12, 24, 25, 26, 27, 33]);
    require(
        &moves[1],
        &[0, 1, 2, 3, 4, 5, 7, 12, 24, 25, 26, 27, 28, 29, 33],
    );
}

#[test]
fn numbers_and_turns() {
    let mut random = Random::new(1);
    for _ in 0..20_000 {
        let [a, b, c] = leaves::turn(&mut random);
        let exact = leaf::orient2d(a, b, c);
        assert_eq!(exact, leaf::orient2d_filtered(a, b, c));
        assert_eq!(exact, leaf::orient2d(b, c, a));
        let [x, y] = [leaves::interval(&mut random), leaves::interval(&mut random)];
        holds_exact(x, y);
    }
}

/// An operation on two points holds its rounded value strictly inside, NaN apart.
fn holds_exact(x: [f64; 2], y: [f64; 2]) {
    let (a, b) = (Interval::point(x[0]), Interval::point(y[0]));
    let ends = [
        (a + b, x[0] + y[0]),
        (a - b, x[0] - y[0]),
        (a * b, x[0] * y[0]),
        (a.sqr(), x[0] * x[0]),
    ];
    for (i, value) in ends {
        assert!(value.is_nan() || i.contains(value));
        assert!(!i.lo().is_nan() && !i.hi().is_nan());
    }
}

#[test]
fn near_and_side() {
    let met = numbers(2000, |random| {
        let [a, b] = leaves::near(random, &T);
        assert_eq!(leaf::near(&T, &a, &b), leaf::near(&T, &b, &a));
        leaf::near(&T, &a, &b).map_or_else(|n| n, u32::from)
    });
    assert_eq!(met, BTreeSet::from([0, 1, 6]));
    let met = numbers(2000, |random| {
        let (plane, q) = leaves::side(random, &T);
        leaf::side(&T, &plane, &q).map_or_else(|n| n, |s| s as u32)
    });
    let signs = [Sign::Negative, Sign::Zero, Sign::Positive].map(|s| s as u32);
    assert_eq!(met, signs.into_iter().chain([7]).collect());
    let met = numbers(2000, |random| {
        let [origin, normal, hint] = leaves::frame(random, &T);
        number(&leaf::frame(&T, &origin, &normal, &hint))
    });
    assert_eq!(met, BTreeSet::from([0, 5]));
}

#[test]
fn chains_and_hulls() {
    let met = numbers(2000, |random| {
        let chain = leaves::chain(random, &T);
        number(&leaf::unique(&T, &chain))
    });
    assert_eq!(met, BTreeSet::from([0, 6]));
    let met = numbers(2000, |random| {
        let (plane, points) = leaves::hull(random, &T);
        number(&leaf::hull(&T, &plane, &points))
    });
    assert_eq!(met, BTreeSet::from([0, 6, 10]));
    let mut random = Random::new(4);
    for _ in 0..100 {
        let (plane, points) = leaves::hull_zeros(&mut random);
        let first = leaf::hull(&T, &plane, &points).expect("a hull")[0];
        let leftmost = |q: &&oracle::Point| q[0].to_bits() == (-0.0f64).to_bits();
        assert_eq!(
            first[0].is_sign_negative(),
            points.iter().any(|q| leftmost(&q))
        );
    }
}

/// Document 01's promise of a cut, where every corner classifies.
fn keeps_promise(t: &Tolerances, cell: &Cell, plane: &oracle::Plane, part: &Option<Cell>) {
    let sign = |q: &oracle::Point| leaf::side(t, plane, q).expect("a side");
    let corners = |c: &Cell| c.iter().flat_map(|f| f.points.clone()).collect::<Vec<_>>();
    let negative = corners(cell).iter().any(|q| sign(q) == Sign::Negative);
    assert_eq!(part.is_some(), negative);
    let Some(part) = part else { return };
    assert!(corners(part).iter().all(|q| sign(q) != Sign::Positive));
    let cut = corners(cell).iter().any(|q| sign(q) == Sign::Positive);
    let cap = part.last().expect("a face");
    assert!(!cut || cap.points.iter().all(|q| sign(q) == Sign::Zero));
}

#[test]
fn cuts() {
    let met = numbers(2000, |random| {
        let question = leaves::cut(random);
        let t = question.tolerances;
        let Ok(cell) = leaf::check(&t, &question.solid, true) else {
            return 0;
        };
        let part = leaf::clip(&t, None, &cell, &question.plane);
        if let Ok(part) = &part {
            keeps_promise(&t, &cell, &question.plane, part);
        }
        number(&part)
    });
    require(&met, &[0, 6, 7, 10]);
}

#[test]
fn arrangements() {
    let met = numbers(4000, |random| {
        let (points, polygon) = leaves::edges(random, &T);
        number(&leaf::conform(&T, &points, &polygon))
    });
    require(&met, &[0, 15, 16, 17]);
    let met = numbers(6000, |random| {
        let face = |points: &Vec<oracle::Point>| Face {
            plane: plane_x(0.0),
            points: points.clone(),
        };
        let loose = leaves::loose(random, &T);
        let cells: Vec<Cell> = loose.iter().map(|c| c.iter().map(face).collect()).collect();
        number(&leaf::fuse_cells(&T, None, &cells))
    });
    require(&met, &[0, 6, 13, 18, 19, 20, 22, 23]);
    let met = numbers(400, |random| {
        let shell = leaves::shell(random);
        leaf::volume_sign(&shell.points, &shell.faces).map_or_else(|n| n, |s| s as u32)
    });
    assert_eq!(met, BTreeSet::from([0, 2, 21]));
}

#[test]
fn answers_change_at_their_edges() {
    let mut random = Random::new(5);
    for _ in 0..500 {
        let t = jobs::tolerances(&mut random);
        let [a, b] = leaves::near_edge(&mut random, &t);
        assert_ne!(leaf::near(&t, &a[0], &a[1]), leaf::near(&t, &b[0], &b[1]));
        let [a, b] = leaves::side_edge(&mut random, &t);
        assert_ne!(leaf::side(&t, &a.0, &a.1), leaf::side(&t, &b.0, &b.1));
        let [a, b] = leaves::edges_edge(&mut random, &t);
        let ends = [&a, &b].map(|q| leaf::conform(&t, &q.0, &q.1));
        assert_ne!(ends[0], ends[1]);
        let shadows = leaves::shadows_edge(&mut random, &t);
        let turns = shadows.map(|[a, b, c]| leaf::orientation(&t, &a, &b, &c));
        assert_eq!(turns, [Ok(Sign::Zero), Err(33)]);
        let [a, b] = leaves::edges_start(&mut random, &t);
        let ends = [&a, &b].map(|q| leaf::conform(&t, &q.0, &q.1));
        assert_ne!(ends[0], ends[1]);
    }
}

#[test]
fn pieces_before_remainders_and_pairs_in_order() {
    let met = numbers(100, |random| {
        let [a, b] = leaves::carve(random, &T);
        number(&leaf::difference(&T, None, &a, &b))
    });
    assert_eq!(met, BTreeSet::from([6, 10]));
    let met = numbers(400, |random| {
        let (t, solid) = leaves::close_solid(random);
        number(&leaf::check(&t, &solid, true))
    });
    require(&met, &[0, 4, 6]);
    let limits = leaves::limits();
    let cut =
        |(cell, plane): &(Cell, oracle::Plane)| number(&leaf::clip(&T, Some(100_000), cell, plane));
    let full = limits.iter().map(cut).filter(|&n| n == 12).count();
    assert!(full > 0 && full < limits.len());
}

#[test]
fn graphs_and_cycles() {
    let mut random = Random::new(3);
    let mut same = 0;
    for _ in 0..2000 {
        let graph = leaves::graph(&mut random);
        let groups = leaf::components(&graph);
        let mut all: Vec<usize> = groups.concat();
        all.sort_unstable();
        assert!(all.into_iter().eq(0..graph.len()));
        let [a, b] = leaves::cycles(&mut random);
        assert_eq!(leaf::same_cycle(&a, &b), leaf::same_cycle(&b, &a));
        same += u32::from(leaf::same_cycle(&a, &b));
    }
    assert!((500..1500).contains(&same));
}

#[test]
fn mesh_leaves() {
    let shadow = |[x, y]: [[f64; 2]; 2]| leaf::Projected {
        x: Interval::ends(x[0], x[1]),
        y: Interval::ends(y[0], y[1]),
    };
    let met = numbers(4000, |random| {
        let [a, b, c] = leaves::shadows(random, &T).map(shadow);
        leaf::orientation(&T, &a, &b, &c).map_or_else(|n| n, |s| s as u32)
    });
    assert_eq!(met, BTreeSet::from([0, 1, 2, 33]));
    let met = numbers(4000, |random| {
        let ends = |[lo, hi]: [f64; 2]| Interval::ends(lo, hi);
        let [a, b, z] = leaves::ranges(random, &T).map(ends);
        u32::from(leaf::contains_range(&T, a, b, z))
    });
    assert_eq!(met, BTreeSet::from([0, 1]));
}
