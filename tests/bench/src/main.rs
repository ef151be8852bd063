//! The port's speed beside the Rust's, in one run: nanoseconds for a call, and the ratio.
mod calls;
mod cutting;
mod numbers;
mod same;
mod solids;
mod timed;

fn main() {
    timed::heading();
    numbers::bench();
    cutting::clips();
    cutting::meshes();
    solids::checks();
    calls::cells();
    calls::fuse();
    calls::moves();
}
