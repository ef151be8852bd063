//! planar.rs of docs/src, as the build step hands it over.
use crate::shim::{
    core as gensolid_core, geom as gensolid_geom, math as gensolid_math, topo as gensolid_topo,
};

pub(crate) mod fuse;

include!(concat!(env!("OUT_DIR"), "/planar.rs"));
