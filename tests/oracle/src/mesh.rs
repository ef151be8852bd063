//! The mesh of docs/src, as the build step hands it over, with the two functions that document 01 replaces.
use crate::shim::core::{Error, Precision, Result};
use crate::shim::float::{greater, lesser};
use crate::shim::geom::Plane;
use crate::shim::math::{Interval, Point3, Sign, Vec3};

include!(concat!(env!("OUT_DIR"), "/mesh.rs"));

/// A certified sign wins, else Zero inside plus or minus local·local, else refused.
pub(crate) fn orientation(p: &Precision, a: Projected, b: Projected, c: Projected) -> Result<Sign> {
    let determinant = (b.x - a.x) * (c.y - a.y) - (b.y - a.y) * (c.x - a.x);
    let tiny = p.default_local() * p.default_local();
    match determinant.sign() {
        Some(sign) => Ok(sign),
        None if determinant.lo() >= -tiny && determinant.hi() <= tiny => Ok(Sign::Zero),
        None => Err(Error::unimplemented(
            "polygon projection orientation cannot be certified",
        )),
    }
}

/// Within local of the range of both, in plain f64; never refused.
pub(crate) fn contains_range(a: Interval, b: Interval, z: Interval, p: &Precision) -> Result<bool> {
    let local = p.default_local();
    Ok(z.hi() >= lesser(a.lo(), b.lo()) - local && z.lo() <= greater(a.hi(), b.hi()) + local)
}
