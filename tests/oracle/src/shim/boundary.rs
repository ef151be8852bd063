//! Near, and the assembly of facets as far as 000 names it.
use super::check::own_plane;
use super::core::{Error, Precision, Result};
use super::geom::{Line, Surface};
use super::math::{Interval, Point3, Sign};
use super::topo::{BodyId, FaceId, Model, Sense};
use crate::planar::opposite;

pub fn near(a: Point3, b: Point3, p: &Precision) -> Result<bool> {
    let gap = |x: f64, y: f64| (Interval::point(x) - Interval::point(y)).sqr();
    let squared = gap(a.x, b.x) + gap(a.y, b.y) + gap(a.z, b.z);
    match (squared - Interval::point(p.default_local()).sqr()).sign() {
        Some(Sign::Negative | Sign::Zero) => Ok(true),
        Some(Sign::Positive) => Ok(false),
        None => Err(Error::near()),
    }
}

pub struct BoundaryEdge {
    pub curve: Line,
    pub uv: Option<Line>,
}

pub struct BoundaryFace {
    pub surface: Surface,
    pub sense: Sense,
    pub edges: Vec<BoundaryEdge>,
}

pub fn line(start: Point3, end: Point3) -> Result<Line> {
    Ok(Line { start, end })
}

/// A face of a given or made body, with the frame of its first three corners.
pub fn extract(model: &Model, id: FaceId) -> Result<BoundaryFace> {
    let points = &model.face(id)?.points;
    let next = points.iter().cycle().skip(1);
    let edge = |(&start, &end)| BoundaryEdge {
        curve: Line { start, end },
        uv: None,
    };
    Ok(BoundaryFace {
        surface: Surface::Plane(own_plane(points, model.precision())?),
        sense: Sense::Positive,
        edges: points.iter().zip(next).map(edge).collect(),
    })
}

/// The corners reversed; the plane follows when the facets are assembled.
pub fn reverse(face: &BoundaryFace) -> Result<BoundaryFace> {
    let turned = |e: &BoundaryEdge| BoundaryEdge {
        curve: Line {
            start: e.curve.end,
            end: e.curve.start,
        },
        uv: None,
    };
    let mut edges: Vec<_> = face.edges.iter().rev().map(turned).collect();
    edges.rotate_left(1);
    Ok(BoundaryFace {
        surface: face.surface,
        sense: Sense::Negative,
        edges,
    })
}

/// A reversed facet gets the opposite plane.
pub fn assemble(m: &mut Model, faces: &[BoundaryFace], _closed: bool) -> Result<BodyId> {
    let mut facets = Vec::new();
    for face in faces {
        let Surface::Plane(plane) = face.surface;
        let plane = match face.sense {
            Sense::Positive => plane,
            Sense::Negative => opposite(plane, m.precision())?,
        };
        facets.push((face.edges.iter().map(|e| e.curve.start).collect(), plane));
    }
    Ok(m.assemble(facets))
}
