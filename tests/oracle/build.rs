//! Takes the ported functions out of docs/src, with the patches listed here and no others.
use std::{env, fs, path::Path};

const MODELING: &str = "crates/gensolid-modeling/src";
const MESH: &str = "crates/gensolid-mesh/src";

/// One change to the text of docs/src: `find` stands exactly `times` times in `item`.
struct Patch {
    why: &'static str,
    item: &'static str,
    find: &'static str,
    put: &'static str,
    times: usize,
}

/// The whole file, where a patch is not of one function.
const FILE: &str = "";

const PLANAR: &[Patch] = &[
    Patch {
        why: "the module fuse is declared in src/planar.rs, since included text cannot find it",
        item: FILE,
        find: "mod fuse;\n",
        put: "",
        times: 1,
    },
    Patch {
        why: "room: a face's 129th corner, a corner that is kept",
        item: "clip",
        find: "points.push(a);",
        put: "crate::room::corner(points.len())?;\npoints.push(a);",
        times: 1,
    },
    Patch {
        why: "room: a cap's 1,025th point, a corner on the plane",
        item: "clip",
        find: "cap.push(a);",
        put: "crate::room::cap(cap.len())?;\ncap.push(a);",
        times: 1,
    },
    Patch {
        why: "room: a face's 129th corner and a cap's 1,025th point, a new corner",
        item: "clip",
        find: "points.push(q);\n                cap.push(q);",
        put: "crate::room::corner(points.len())?;\npoints.push(q);\n\
              crate::room::cap(cap.len())?;\ncap.push(q);",
        times: 1,
    },
    Patch {
        why: "room: a cell left whole is added again, face by face",
        item: "clip",
        find: "return Ok(Some(poly.clone()));",
        put: "crate::room::whole(&poly.faces)?;\nreturn Ok(Some(poly.clone()));",
        times: 1,
    },
    Patch {
        why: "room: a cell's 129th face, and its corners, a face that is kept",
        item: "clip",
        find: "if points.len() >= 3 {",
        put: "if points.len() >= 3 {\ncrate::room::face(&faces, points.len())?;",
        times: 1,
    },
    Patch {
        why: "room: a cell's 129th face, and its corners, the cap after the hull's own refusals",
        item: "clip",
        find:
            "faces.push(Polygon {\n        points: hull(cap, plane, p)?,\n        plane,\n    });",
        put: "let points = hull(cap, plane, p)?;\ncrate::room::face(&faces, points.len())?;\n\
              faces.push(Polygon { points, plane });",
        times: 1,
    },
    Patch {
        why: "room: the list of cells, a piece outside",
        item: "difference",
        find: "out.push(piece);",
        put: "crate::room::cell(&out, &piece)?;\nout.push(piece);",
        times: 1,
    },
    Patch {
        why: "room: the list of cells, the second solid of a union",
        item: "body_boolean_cells",
        find: "out.push(b);",
        put: "crate::room::cell(&out, &b)?;\nout.push(b);",
        times: 1,
    },
];

const FUSE: &[Patch] = &[
    Patch {
        why: "room: the list of cells, the part behind the plane",
        item: "split_cells",
        find: "next.push(a);",
        put: "crate::room::cell(&next, &a)?;\nnext.push(a);",
        times: 1,
    },
    Patch {
        why: "room: the list of cells, the part before the plane",
        item: "split_cells",
        find: "next.push(b);",
        put: "crate::room::cell(&next, &b)?;\nnext.push(b);",
        times: 1,
    },
    Patch {
        why: "room: the list of cells, the second solid of a union",
        item: "body_boolean",
        find: "cells.push(b);",
        put: "crate::room::cell(&cells, &b)?;\ncells.push(b);",
        times: 1,
    },
    Patch {
        why: "room: the list of facets after conform",
        item: "fuse",
        find: "for (i, f) in uses.iter_mut().enumerate() {\n        \
               f.vertices = conform(&points, &f.vertices, &p)?;",
        put: "let mut listed = 0;\nfor (i, f) in uses.iter_mut().enumerate() {\n\
              f.vertices = conform(&points, &f.vertices, &p)?;\n\
              crate::room::facet(&mut listed, f.vertices.len())?;",
        times: 1,
    },
];

const MESH_PATCHES: &[Patch] = &[
    Patch {
        why: "document 01's mesh orientation needs the tolerances",
        item: "simple",
        find: "orientation(",
        put: "orientation(p, ",
        times: 4,
    },
    Patch {
        why: "document 01's mesh orientation needs the tolerances",
        item: "triangles",
        find: "orientation(",
        put: "orientation(p, ",
        times: 5,
    },
];

/// What is taken of the mesh. `orientation` and `contains_range` are replaced by document 01,
/// and the rest of the file is left out by it.
const MESH_ITEMS: &[&str] = &[
    "Projected",
    "coordinates",
    "components",
    "dot",
    "reciprocal_positive",
    "projected",
    "plane_basis",
    "opposite",
    "simple",
    "triangles",
];

/// The heads of an item as rustfmt writes them at the start of a line.
fn heads(name: &str) -> [String; 3] {
    [
        format!("\nfn {name}("),
        format!("\npub fn {name}("),
        format!("\n#[derive(Clone, Copy)]\nstruct {name} {{"),
    ]
}

/// Where an item stands in the text, from its head to its closing brace.
fn place(text: &str, name: &str) -> std::ops::Range<usize> {
    let start = heads(name)
        .iter()
        .find_map(|head| text.find(head.as_str()))
        .unwrap_or_else(|| panic!("docs/src has no item {name}"))
        + 1;
    let length = text[start..]
        .find("\n}\n")
        .unwrap_or_else(|| panic!("item {name} has no end"));
    start..start + length + 3
}

fn apply(text: &mut String, patch: &Patch) {
    let range = match patch.item {
        FILE => 0..text.len(),
        name => place(text, name),
    };
    let found = text[range.clone()].matches(patch.find).count();
    assert_eq!(
        found, patch.times,
        "patch '{}' of item '{}' no longer fits docs/src",
        patch.why, patch.item
    );
    let changed = text[range.clone()].replace(patch.find, patch.put);
    text.replace_range(range, &changed);
}

fn patched(path: &Path, patches: &[Patch]) -> String {
    println!("cargo:rerun-if-changed={}", path.display());
    let mut text = fs::read_to_string(path).unwrap_or_else(|e| panic!("{}: {e}", path.display()));
    for patch in patches {
        apply(&mut text, patch);
    }
    text
}

/// Included text may not begin with inner comments, and the leaves are compared one by one:
/// `//!` becomes `//`, private functions, structs and their fields are opened to the crate.
fn opened(text: &str) -> String {
    let mut in_struct = false;
    let mut out = String::new();
    for line in text.lines() {
        in_struct = line.starts_with("struct ") || (in_struct && line != "}");
        let private = line.starts_with("fn ") || line.starts_with("struct ");
        if private {
            out.push_str("pub(crate) ");
        } else if in_struct {
            out.push_str("    pub(crate) ");
        }
        out.push_str(&line.replacen("//!", "//", 1));
        out.push('\n');
    }
    out
}

fn taken(text: &str, names: &[&str]) -> String {
    names.iter().map(|name| &text[place(text, name)]).collect()
}

fn main() {
    let manifest = env::var("CARGO_MANIFEST_DIR").expect("cargo gives the manifest's directory");
    let out = env::var("OUT_DIR").expect("cargo gives a directory for what is built");
    let source = Path::new(&manifest).join("../../docs/src");
    let write = |name: &str, text: String| {
        fs::write(Path::new(&out).join(name), text).expect("the built text can be written");
    };
    let modeling = source.join(MODELING);
    write(
        "planar.rs",
        opened(&patched(&modeling.join("planar.rs"), PLANAR)),
    );
    write(
        "fuse.rs",
        opened(&patched(&modeling.join("planar/fuse.rs"), FUSE)),
    );
    let mesh = patched(&source.join(MESH).join("planar.rs"), MESH_PATCHES);
    write("mesh.rs", opened(&taken(&mesh, MESH_ITEMS)));
    println!("cargo:rerun-if-changed=build.rs");
}
