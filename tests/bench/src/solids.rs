//! Reading and checking a cell's bytes beside the Rust over the shim.
use crate::timed::row;
use gen::solid;
use oracle::{leaf, read_cell, CellFile, Tolerances};
use port::solids::Desk;

pub fn checks() {
    let cells = [
        ("a box", solid::cube(0.0, 2.0)),
        ("a prism of 64 faces", solid::prism(62, 10.0, 5.0)),
    ];
    for (name, solid) in cells {
        let tolerances = Tolerances::USUAL;
        let bytes = CellFile { tolerances, solid }.bytes();
        let mut desk = Desk::default();
        assert_eq!(desk.check_cell(&bytes, true), 0, "a timed solid is refused");
        let rust = |()| read_cell(&bytes).and_then(|c| leaf::check(&c.tolerances, &c.solid, true));
        let port = |()| desk.check_cell(&bytes, true);
        row(&format!("read and check {name}"), &[()], port, rust, 1.0);
    }
}
