//! The mesh of one facet: the number, every place, and that all else is as it was.
use crate::report::{Report, Told};
use crate::Scale;
use gen::facets::{self, Family};
use gen::{jobs, pairs, Random};
use oracle::{leaf, Body, FacetFile, Lent, Outcome};
use port::mesh::Mesher;

const EACH: usize = 5_000;

type Triangles = Vec<[usize; 3]>;

fn ours(mesher: &mut Mesher, f: &FacetFile) -> Told<Triangles> {
    let t = [f.tolerances.linear, f.tolerances.local];
    let told = mesher.mesh(&f.facet.plane, t, &f.facet.points);
    told.clean.then_some(told.answer)
}

fn theirs(f: &FacetFile) -> Told<Triangles> {
    Some(leaf::mesh(&f.tolerances, &f.facet).map_err(u64::from))
}

fn asked(
    report: &mut Report,
    mesher: &mut Mesher,
    name: &str,
    given: impl IntoIterator<Item = FacetFile>,
) {
    report.ask_call(["mesh", name], given, |f| ours(mesher, f), theirs);
}

pub fn compare(report: &mut Report, seed: u64, scale: Scale) {
    let mut mesher = Mesher::new();
    let mut random = Random::new(seed);
    for Family { name, make } in facets::FAMILIES {
        let given: Vec<_> = (0..scale.of(EACH)).map(|_| make(&mut random)).collect();
        asked(report, &mut mesher, name, given);
    }
    asked(report, &mut mesher, "0 to 130 corners", facets::counts());
    let facets = fused(&mut random, scale.of(400));
    asked(report, &mut mesher, "fused answers", facets);
    p9(report, &mut mesher);
    let few = (0..100).map(|_| facets::any(&mut random));
    report.ask(
        "mesh, lent too little",
        few,
        |f| {
            let t = [f.tolerances.linear, f.tolerances.local];
            mesher.leaves_short_alone(&f.facet.plane, &f.facet.points, t)
        },
        |_| true,
    );
    report.reached("mesh", &[0, 2, 3, 12, 30, 31, 32, 33, 34]);
}

fn facets_of(bodies: &[Body]) -> impl Iterator<Item = leaf::Face> + '_ {
    let shells = bodies.iter().flat_map(|b| &b.shells);
    shells.flat_map(|s| &s.facets).cloned()
}

/// The facets of the oracle's fused answers.
fn fused(random: &mut Random, answers: usize) -> Vec<FacetFile> {
    let mut out = Vec::new();
    for _ in 0..answers {
        let job = jobs::any(random);
        let told: Outcome<Vec<Body>> = oracle::fuse_bodies(&job.bytes(), Lent::even(1024));
        let Ok(bodies) = told else { continue };
        out.extend(facets_of(&bodies).map(|facet| FacetFile {
            tolerances: job.tolerances,
            facet,
        }));
    }
    out
}

/// P9's answer has 42 facets and meshes to 84 triangles.
fn p9(report: &mut Report, mesher: &mut Mesher) {
    let files = pairs::files();
    let job = files.into_iter().find(|f| f.0 == "p9.job").map(|f| f.1);
    report.ask(
        "P9's 84 triangles",
        job,
        |job| {
            let bodies = oracle::fuse_bodies(&job.bytes(), Lent::UNBOUNDED).unwrap_or_default();
            let file = |facet| FacetFile {
                tolerances: job.tolerances,
                facet,
            };
            let meshed: Vec<_> = facets_of(&bodies).map(|f| ours(mesher, &file(f))).collect();
            let triangles = meshed.iter().flatten().flatten().map(Vec::len).sum();
            (meshed.len(), triangles)
        },
        |_| (42, 84),
    );
}
