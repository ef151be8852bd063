//! planar/fuse.rs of docs/src, as the build step hands it over.
include!(concat!(env!("OUT_DIR"), "/fuse.rs"));
