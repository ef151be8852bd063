//! The oracle: docs/src compiled over document 01's stand-ins, with a model of the job file (1)
//! and of the room (12), which are ours. Every refusal is its number in document 01.
mod answer;
mod calls;
mod job;
pub mod leaf;
#[allow(dead_code)] // the whole of docs/src is compiled, also what document 01 leaves out
mod mesh;
#[allow(dead_code, unreachable_code)] // as above; and there are no widened edges or vertices
mod planar;
mod record;
pub mod refusal;
mod room;
#[allow(dead_code)] // docs/src also names what no call reads
mod shim;

pub use answer::{
    bodies_bytes, cells_bytes, read_bodies, text, triangles_bytes, Body, Facet, Shell,
};
pub use calls::{
    cells, cells_solids, fuse, fuse_bodies, hollow, hollow_bodies, mesh, mesh_triangles, offset,
    offset_solid, solidjob, Call, Lent, CORNER_BYTES, SOLIDJOB_ROOM,
};
pub use job::{read_cell, read_facet, read_job, CellFile, FacetFile, Job, Operation};
pub use leaf::{Cell, Face, Outcome, Plane, Point, Solid, Tolerances};
pub use record::{join, Record};
pub use shim::math::{Interval, Sign};

// docs/src finds these in its own crate.
pub(crate) use shim::topo::body_check_complete;
pub(crate) use shim::{boundary, edit};
