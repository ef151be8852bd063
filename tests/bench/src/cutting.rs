//! `clip` and the mesh beside those of docs/src over the shim, on cells and facets that both have at hand.
use crate::timed::row;
use gen::{cuts, facets};
use oracle::leaf::{ReadyCut, ReadyMesh};
use port::cutting::{face, Cutter, Given};
use port::mesh::Mesher;

const CELLS: usize = 8;
const ROOM: usize = 720;

fn given(cut: &cuts::Cut) -> Given {
    let faces = cut.cell.iter();
    Given {
        floats: faces.flat_map(|f| face(&f.plane, 0.0, &f.points)).collect(),
        sizes: cut.cell.iter().map(|f| f.points.len() as u64).collect(),
        from: 0,
        j: 0,
        faces: cut.cell.len(),
        limit: ROOM,
        at: 0,
        k: 0,
    }
}

pub fn clips() {
    for (name, list) in cuts::timed(CELLS) {
        let local = list[0].tolerances.local;
        let ready: Vec<_> = list
            .iter()
            .map(|c| ReadyCut::new(&c.tolerances, ROOM, &c.cell, &c.plane))
            .collect();
        let mut lent: Vec<_> = list.iter().map(|c| (Cutter::new(), given(c))).collect();
        for ((cutter, cell), c) in lent.iter_mut().zip(&list) {
            cutter.give(&c.plane, cell);
            assert_eq!(cutter.call(cell, local, 0), 0, "a timed cut is refused");
        }
        let places: Vec<_> = (0..CELLS).cycle().take(64).collect();
        let port = |i: usize| {
            let (cutter, cell) = &mut lent[i];
            cutter.call(cell, local, 0)
        };
        let name = format!("clip of {name}");
        row(&name, &places, port, |i| ready[i].run(), 1.0);
    }
}

pub fn meshes() {
    for (name, f) in facets::greatest() {
        let t = [f.tolerances.linear, f.tolerances.local];
        let n = f.facet.points.len();
        let mut mesher = Mesher::new();
        mesher.give(&f.facet.plane, &f.facet.points);
        assert_eq!(mesher.call(t, n, 0), 0, "a timed facet is refused");
        let ready = ReadyMesh::new(&f.tolerances, &f.facet);
        let port = |()| mesher.call(t, n, 0);
        let name = format!("mesh of {name}");
        row(&name, &[()], port, |()| ready.run(), 1.0);
    }
}
