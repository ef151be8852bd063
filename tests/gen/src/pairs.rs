//! The pairs of document 01 that are jobs.
use crate::solid::{cube, cuboid};
use oracle::Job;
use oracle::Operation::{Difference, Intersection, Union};

/// Each with the name of its file. All boxes have their faces in `cuboid`'s order.
pub fn files() -> Vec<(&'static str, Job)> {
    let two = |a: [f64; 2], b: [f64; 2], operation| {
        Job::usual(cube(a[0], a[1]), cube(b[0], b[1]), operation)
    };
    let unit = |at: [f64; 3]| cuboid(at, at.map(|x| x + 1.0));
    let units = |at, operation| Job::usual(cube(0.0, 1.0), unit(at), operation);
    vec![
        ("p7.job", two([0.0, 2.0], [1.0, 3.0], Intersection)),
        ("p8.job", two([0.0, 2.0], [1.0, 3.0], Difference)),
        ("p9.job", two([0.0, 2.0], [1.0, 3.0], Union)),
        ("p10.job", two([0.0, 3.0], [1.0, 2.0], Difference)),
        ("p11.job", units([1.0, 1.0, 0.0], Union)),
        ("p12.job", units([1.0, 0.0, 0.0], Union)),
        ("p12-intersection.job", units([1.0, 0.0, 0.0], Intersection)),
    ]
}
