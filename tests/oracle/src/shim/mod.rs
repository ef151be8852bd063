//! Document 01's stand-ins for the crates that docs/src is written over, under the names it uses.
pub mod big;
pub mod boundary;
pub mod check;
pub mod core;
pub mod edit;
pub mod float;
pub mod geom;
pub mod math;
pub mod topo;
