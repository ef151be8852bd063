//! A model that carries solids and facet lists through 000, and checks nothing but document 01's solid check.
use super::check;
use super::core::{Precision, Result};
use super::geom::Plane;
use super::math::Point3;
use std::convert::Infallible;

#[derive(Clone, Copy, PartialEq, Eq)]
pub struct BodyId(usize);
#[derive(Clone, Copy, PartialEq, Eq)]
pub struct FaceId(usize);
#[derive(Clone, Copy, PartialEq, Eq)]
pub struct RegionId(usize);
#[derive(Clone, Copy, PartialEq, Eq)]
pub struct ShellId(usize);

/// Widened edges and vertices are left out by document 01: there are none.
pub type EdgeId = Infallible;
pub type VertexId = Infallible;

#[derive(Clone, Copy)]
pub struct Tolerance(f64);

impl Tolerance {
    pub fn value(&self) -> f64 {
        self.0
    }
}

pub struct Widened {
    pub tolerance: Option<Tolerance>,
}

#[derive(Clone, Copy, PartialEq, Eq)]
pub enum BodyKind {
    Solid,
}

#[derive(Clone, Copy, PartialEq, Eq)]
pub enum Sense {
    Positive,
    Negative,
}

/// Points, and faces by the places of their corners.
#[derive(Clone, Debug)]
pub struct Solid {
    pub points: Vec<Point3>,
    pub faces: Vec<Vec<usize>>,
}

/// Where a body comes from decides what is checked of it.
enum Origin {
    Given(Solid),
    Made(Solid),
    Assembled,
}

pub struct Body {
    pub kind: BodyKind,
    pub regions: Vec<RegionId>,
    faces: Vec<FaceId>,
    origin: Origin,
}

/// A face's corners, and its plane where that is not the frame of its first three.
pub struct Face {
    pub points: Vec<Point3>,
    pub plane: Option<Plane>,
    pub front: Option<ShellId>,
    pub back: Option<ShellId>,
}

pub struct Region {
    pub body: BodyId,
    pub solid: bool,
    pub shells: Vec<ShellId>,
}

pub struct Shell {
    pub region: RegionId,
    pub faces: Vec<FaceId>,
    pub wire_edges: Vec<EdgeId>,
    pub acorn_vertices: Vec<VertexId>,
}

pub struct Model {
    precision: Precision,
    bodies: Vec<Body>,
    faces: Vec<Face>,
    regions: Vec<Region>,
    shells: Vec<Shell>,
}

fn push<T>(list: &mut Vec<T>, item: T) -> usize {
    list.push(item);
    list.len() - 1
}

impl Model {
    pub fn new(precision: Precision) -> Self {
        Model {
            precision,
            bodies: Vec::new(),
            faces: Vec::new(),
            regions: Vec::new(),
            shells: Vec::new(),
        }
    }

    pub fn precision(&self) -> &Precision {
        &self.precision
    }

    pub fn transaction<T>(&mut self, work: impl FnOnce(&mut Model) -> Result<T>) -> Result<T> {
        work(self)
    }

    pub fn raw(&mut self) -> Raw<'_> {
        Raw(self)
    }

    /// An input solid, not yet checked.
    pub fn give(&mut self, solid: Solid) -> BodyId {
        self.insert_solid(&solid.clone(), Origin::Given(solid))
    }

    fn insert_solid(&mut self, solid: &Solid, origin: Origin) -> BodyId {
        let corners = |face: &Vec<usize>| {
            let inside = face.iter().filter_map(|&i| solid.points.get(i));
            (inside.copied().collect(), None)
        };
        let faces = solid.faces.iter().map(corners).collect();
        self.insert_body(faces, origin)
    }

    /// Facets with their planes, in one shell seen from outside and from the material.
    pub fn assemble(&mut self, facets: Vec<(Vec<Point3>, Plane)>) -> BodyId {
        let faces = facets.into_iter().map(|(q, plane)| (q, Some(plane)));
        let id = self.insert_body(faces.collect(), Origin::Assembled);
        for solid in [false, true] {
            let region = RegionId(self.regions.len());
            let shell = ShellId(self.shells.len());
            self.shells.push(Shell {
                region,
                faces: self.bodies[id.0].faces.clone(),
                wire_edges: Vec::new(),
                acorn_vertices: Vec::new(),
            });
            self.regions.push(Region {
                body: id,
                solid,
                shells: vec![shell],
            });
            self.bodies[id.0].regions.push(region);
        }
        id
    }

    fn insert_body(&mut self, faces: Vec<(Vec<Point3>, Option<Plane>)>, origin: Origin) -> BodyId {
        let mut ids = Vec::new();
        for (points, plane) in faces {
            let face = Face {
                points,
                plane,
                front: None,
                back: None,
            };
            ids.push(FaceId(push(&mut self.faces, face)));
        }
        let body = Body {
            kind: BodyKind::Solid,
            regions: Vec::new(),
            faces: ids,
            origin,
        };
        BodyId(push(&mut self.bodies, body))
    }

    pub fn body(&self, id: BodyId) -> Result<&Body> {
        Ok(&self.bodies[id.0])
    }

    pub fn body_faces(&self, id: BodyId) -> Result<Vec<FaceId>> {
        Ok(self.bodies[id.0].faces.clone())
    }

    pub fn body_edges(&self, _: BodyId) -> Result<Vec<EdgeId>> {
        Ok(Vec::new())
    }

    pub fn body_vertices(&self, _: BodyId) -> Result<Vec<VertexId>> {
        Ok(Vec::new())
    }

    pub fn edge(&self, id: EdgeId) -> Result<Widened> {
        match id {}
    }

    pub fn vertex(&self, id: VertexId) -> Result<Widened> {
        match id {}
    }

    pub fn face(&self, id: FaceId) -> Result<&Face> {
        Ok(&self.faces[id.0])
    }

    pub fn region(&self, id: RegionId) -> Result<&Region> {
        Ok(&self.regions[id.0])
    }

    /// The solid of a body that was given or made.
    pub fn solid(&self, id: BodyId) -> Option<&Solid> {
        match &self.bodies[id.0].origin {
            Origin::Given(solid) | Origin::Made(solid) => Some(solid),
            Origin::Assembled => None,
        }
    }

    /// The shells around an assembled body's material: the outward one, then the inward ones.
    pub fn material_shells(&self, id: BodyId) -> Vec<Vec<&Face>> {
        let material = self.bodies[id.0].regions[1];
        let shells = self.regions[material.0].shells.iter();
        let faces = |s: &ShellId| self.shells[s.0].faces.iter().map(|f| &self.faces[f.0]);
        shells.map(|s| faces(s).collect()).collect()
    }
}

pub struct Raw<'a>(&'a mut Model);

impl Raw<'_> {
    pub fn insert_region(&mut self, region: Region) -> Result<RegionId> {
        Ok(RegionId(push(&mut self.0.regions, region)))
    }

    pub fn insert_shell(&mut self, shell: Shell) -> Result<ShellId> {
        Ok(ShellId(push(&mut self.0.shells, shell)))
    }

    pub fn body_mut(&mut self, id: BodyId) -> Result<&mut Body> {
        Ok(&mut self.0.bodies[id.0])
    }

    pub fn region_mut(&mut self, id: RegionId) -> Result<&mut Region> {
        Ok(&mut self.0.regions[id.0])
    }

    pub fn shell_mut(&mut self, id: ShellId) -> Result<&mut Shell> {
        Ok(&mut self.0.shells[id.0])
    }

    pub fn face_mut(&mut self, id: FaceId) -> Result<&mut Face> {
        Ok(&mut self.0.faces[id.0])
    }
}

/// What is made of indexed points and faces passes the solid check without the counts.
pub fn make_convex_polyhedron(
    m: &mut Model,
    points: &[Point3],
    faces: &[Vec<usize>],
) -> Result<BodyId> {
    let solid = Solid {
        points: points.to_vec(),
        faces: faces.to_vec(),
    };
    check::solid(&solid, &m.precision, false)?;
    Ok(m.insert_solid(&solid.clone(), Origin::Made(solid)))
}

/// An input solid passes the whole check; what is made was checked when it was made, and what is
/// assembled has no check beyond fusing's own.
pub fn body_check_complete(model: &Model, id: BodyId) -> Result<()> {
    match &model.bodies[id.0].origin {
        Origin::Given(solid) => check::solid(solid, &model.precision, true),
        Origin::Made(_) | Origin::Assembled => Ok(()),
    }
}
