//! What users of fusing must know: the README's limits and docs/DIFFERENCES.md, shown on 000.
mod common;

use common::*;
use gen::limits;
use gen::solid::{dot, sub};
use oracle::{leaf, Job, Lent};

fn fused(job: &Job) -> Result<Vec<usize>, u32> {
    let bodies = oracle::fuse_bodies(&job.bytes(), Lent::UNBOUNDED)?;
    let facets = |b: &oracle::Body| b.shells.iter().map(|s| s.facets.len()).sum();
    Ok(bodies.iter().map(facets).collect())
}

fn cells(job: &Job) -> Result<usize, u32> {
    oracle::cells_solids(&job.bytes(), Lent::UNBOUNDED).map(|cells| cells.len())
}

#[test]
fn a_solid_within_local_of_a_plane_vanishes() {
    let [second, first, rest] = limits::vanishing();
    assert_eq!((fused(&second), cells(&second)), (Ok(vec![6]), Ok(2)));
    assert_eq!((fused(&first), cells(&first)), (Ok(vec![6]), Ok(1)));
    assert_eq!((fused(&rest), cells(&rest)), (Ok(vec![]), Ok(0)));
}

#[test]
fn whether_cells_keep_it_depends_on_the_order_of_faces() {
    let job = limits::kept_as_cell();
    assert_eq!((fused(&job), cells(&job)), (Ok(vec![]), Ok(1)));
}

#[test]
fn a_layer_of_three_local_vanishes_in_parts() {
    assert_eq!(fused(&limits::swallowed()), Ok(vec![]));
}

#[test]
fn a_merged_corner_may_stand_off_by_more_than_local() {
    let job = limits::far_off_plane().bytes();
    let bodies = oracle::fuse_bodies(&job, Lent::UNBOUNDED).expect("an answer");
    let facets = bodies
        .iter()
        .flat_map(|b| &b.shells)
        .flat_map(|s| &s.facets);
    // the twelve numbers of a plane: origin, x, y, z
    let part = |f: &oracle::Facet, k: usize| std::array::from_fn(|i| f.plane[3 * k + i]);
    let off = |f: &oracle::Facet| {
        let height = |&q: &oracle::Point| dot(part(f, 3), sub(q, part(f, 0))).abs();
        f.points.iter().map(height).fold(0.0, f64::max)
    };
    let most = facets.map(off).fold(0.0, f64::max) / T.local;
    assert!((most - 1.5).abs() < 0.01, "{most} local");
}

#[test]
fn a_straight_run_on_a_cut_edge_is_refused() {
    let job = limits::straight_run();
    assert_eq!((fused(&job), cells(&job)), (Err(20), Err(5)));
}

#[test]
fn a_facet_folds_over_its_own_vertex() {
    let job = limits::folded_facet();
    assert_eq!((fused(&job), cells(&job)), (Err(20), Ok(2)));
}

#[test]
fn a_fused_facet_may_stand_off_its_plane() {
    let job = limits::off_plane().bytes();
    let bodies = oracle::fuse_bodies(&job, Lent::UNBOUNDED).expect("an answer");
    let facets: Vec<_> = bodies
        .iter()
        .flat_map(|b| &b.shells)
        .flat_map(|s| &s.facets)
        .collect();
    let mesh = |f: &&oracle::Facet| oracle::mesh_triangles(&facet_file(&f.plane, &f.points), None);
    let refused: Vec<_> = facets.iter().filter_map(|f| mesh(f).err()).collect();
    assert_eq!((facets.len(), refused), (12, vec![30]));
}

#[test]
fn faces_nearly_in_one_plane_are_refused() {
    assert_eq!(fused(&limits::nearly_flush()), Err(20));
}

#[test]
fn a_body_may_have_no_outside() {
    let out = checked(&gen::solid::tetrahedron(1.0));
    let turned = |f: &oracle::Face| oracle::Face {
        plane: leaf::opposite(&T, &f.plane).expect("a plane"),
        points: f.points.iter().rev().copied().collect(),
    };
    let inside_out = out.iter().map(turned).collect();
    let bodies = leaf::fuse_cells(&T, None, &[out, inside_out]);
    assert_eq!(bodies.err(), Some(23));
}
