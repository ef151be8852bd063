//! Every error text of docs/src with its number in document 01.

/// The texts of what is carried over.
pub const NUMBERS: &[(&str, u32)] = &[
    ("offset must be finite", 2),
    ("convex planar face budget exceeded", 3),
    ("mesh face has fewer than three vertices", 3),
    ("plane classification unresolved at local tolerance", 7),
    ("edge-plane denominator unresolved", 8),
    ("edge-plane root residual exceeds precision", 9),
    ("cut polygon collapsed", 10),
    ("nonfinite cut polygon", 10),
    ("cut polygon has no area", 10),
    ("planar arrangement cell budget exceeded", 11),
    ("ambiguous arrangement vertex", 13),
    ("arrangement vertex budget exceeded", 14),
    ("arrangement edge collapsed", 15),
    ("arrangement edge incidence unresolved", 16),
    ("arrangement vertex order unresolved", 17),
    ("arrangement interface orientation mismatch", 18),
    ("nonmanifold arrangement interface", 19),
    ("Boolean boundary is not a closed two-manifold", 20),
    ("Boolean boundary edge winding mismatch", 20),
    ("boundary shell orientation is not certified", 21),
    ("multiple outer shells in one material component", 22),
    ("Boolean component has no outward shell", 23),
    (
        "offset requires trihedral vertices and unchanged topology",
        24,
    ),
    (
        "offset planes do not have a certified unique intersection",
        25,
    ),
    ("offset vertex residual is outside precision", 26),
    (
        "offset crossed a supporting plane; topology change required",
        27,
    ),
    ("wall thickness must exceed precision", 28),
    ("inner shell is not strictly contained", 29),
    ("self-intersecting polygon loop", 30),
    ("polygon has overlapping nonadjacent edges", 30),
    (
        "polygon has no certified ear at its required orientation",
        31,
    ),
    ("polygon residual triangle is degenerate", 32),
    ("polygon projection orientation cannot be certified", 33),
    ("plane projection handedness cannot be certified", 34),
    ("projection norm has no certified positive bound", 34),
    ("projection reciprocal is unbounded", 34),
];

/// The texts of what document 01 leaves out or replaces: no call gives one.
pub const LEFT_OUT: &[&str] = &[
    "operation requires a solid",
    "planar operations on widened edge tolerances",
    "planar operations on widened vertex tolerances",
    "removed face must belong to body",
    "offset shell is not contained",
    "offset changed face incidence",
    "trim carrier endpoint bound is not finite",
    "segment bound is unresolved",
    "body tessellation requires a solid",
    "body does not pass complete validity checks",
    "planar mesh faces with holes are not implemented",
    "face has no carrier",
    "trimmed curved-body tessellation is not implemented",
    "edge has no carrier",
    "curved planar face trims are not implemented",
    "mesh trim carrier needs two endpoints",
    "mesh polygon needs bounded edges",
    "plane normal has no positive norm bound",
    "body has no tessellated boundary",
    "local B-rep tolerance exceeds mesh chord budget",
    "edge is not owned by any body",
];

/// The number of a text.
pub fn number(text: &str) -> u32 {
    match NUMBERS.iter().find(|(known, _)| *known == text) {
        Some(&(_, number)) => number,
        None => panic!("no number of document 01 for '{text}'"),
    }
}
