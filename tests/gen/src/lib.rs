//! A seeded generator: jobs, cells and facets as bytes, damaged ones, and questions at the edges of the leaves.
pub mod calls;
pub mod cells;
pub mod cuts;
pub mod damage;
pub mod dents;
pub mod facets;
pub mod family;
pub mod jobs;
pub mod leaves;
pub mod limits;
pub mod lists;
pub mod pairs;
pub mod random;
pub mod replay;
pub mod solid;

pub use random::Random;
