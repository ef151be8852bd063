//! The corners of a planar face.
use super::core::Result;
use super::math::Point3;
use super::topo::{FaceId, Model};

pub fn planar_polygon(model: &Model, id: FaceId) -> Result<Vec<Point3>> {
    Ok(model.face(id)?.points.clone())
}
