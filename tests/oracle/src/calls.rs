//! One function for each entry point of the library: bytes in, the answer's bytes or a refusal out.
use crate::answer::{bodies_bytes, cells_bytes, text, triangles_bytes, Body, Shell};
use crate::job::{read_cell, read_facet, read_job, Operation};
use crate::leaf::{self, Outcome, Solid, Tolerances};
use crate::planar::{
    body_boolean, body_boolean_cells, body_hollow_planar, body_offset_planar, BooleanOperation,
};
use crate::room;
use crate::shim::core::{Error, Result};
use crate::shim::topo::{BodyId, Face, Model};

/// The room that `solidjob` lends.
pub const SOLIDJOB_ROOM: usize = 720;

/// What a caller lends, in corners: the work room and the answer room. None is without limit.
#[derive(Clone, Copy, Debug, Default)]
pub struct Lent {
    pub room: Option<usize>,
    pub answer: Option<usize>,
}

impl Lent {
    pub const UNBOUNDED: Lent = Lent {
        room: None,
        answer: None,
    };

    /// Work and answer of the same size.
    pub fn even(room: usize) -> Lent {
        Lent {
            room: Some(room),
            answer: Some(room),
        }
    }

    /// 12 for an answer room below the work room, then 2 for the tolerances.
    fn open(self, t: &Tolerances) -> Outcome<()> {
        if below(self.answer, self.room.unwrap_or(0)) {
            return Err(12);
        }
        fair(t)
    }
}

fn below(answer: Option<usize>, needed: usize) -> bool {
    answer.is_some_and(|answer| answer < needed)
}

/// 2^-40 <= linear <= local <= 2^-4.
fn fair(t: &Tolerances) -> Outcome<()> {
    let (least, most) = (2f64.powi(-40), 2f64.powi(-4));
    if least <= t.linear && t.linear <= t.local && t.local <= most {
        Ok(())
    } else {
        Err(2)
    }
}

impl From<Operation> for BooleanOperation {
    fn from(operation: Operation) -> Self {
        match operation {
            Operation::Intersection => BooleanOperation::Intersection,
            Operation::Difference => BooleanOperation::Difference,
            Operation::Union => BooleanOperation::Union,
        }
    }
}

/// Runs a work of 000 on a model in the lent room.
fn run<T>(lent: Lent, t: &Tolerances, work: impl FnOnce(&mut Model) -> Result<T>) -> Outcome<T> {
    lent.open(t)?;
    let mut model = Model::new(leaf::precision(t));
    room::with(lent.room, || work(&mut model)).map_err(Error::number)
}

fn solid_of(model: &Model, id: BodyId) -> Solid {
    let solid = model.solid(id).expect("a made body has its solid");
    leaf::plain_solid(solid)
}

fn facet_of(face: &Face) -> leaf::Face {
    leaf::Face {
        plane: leaf::plain_plane(face.plane.expect("an assembled facet has its plane")),
        points: face.points.iter().map(|&q| leaf::plain_point(q)).collect(),
    }
}

pub(crate) fn body_of(model: &Model, id: BodyId) -> Body {
    let shells = model.material_shells(id);
    let shell = |(i, faces): (usize, &Vec<&Face>)| Shell {
        outward: i == 0,
        facets: faces.iter().map(|f| facet_of(f)).collect(),
    };
    Body {
        shells: shells.iter().enumerate().map(shell).collect(),
    }
}

/// The fused bodies of a job.
pub fn fuse_bodies(job: &[u8], lent: Lent) -> Outcome<Vec<Body>> {
    let job = read_job(job)?;
    run(lent, &job.tolerances, |model| {
        let first = model.give(leaf::given(&job.first));
        let second = model.give(leaf::given(&job.second));
        let bodies = body_boolean(model, first, second, job.operation.into())?;
        Ok(bodies.into_iter().map(|id| body_of(model, id)).collect())
    })
}

pub fn fuse(job: &[u8], lent: Lent) -> Outcome<Vec<u8>> {
    fuse_bodies(job, lent).map(|bodies| bodies_bytes(&bodies))
}

/// The checked cells of a job.
pub fn cells_solids(job: &[u8], lent: Lent) -> Outcome<Vec<Solid>> {
    let job = read_job(job)?;
    run(lent, &job.tolerances, |model| {
        let first = model.give(leaf::given(&job.first));
        let second = model.give(leaf::given(&job.second));
        let cells = body_boolean_cells(model, first, second, job.operation.into())?;
        Ok(cells.into_iter().map(|id| solid_of(model, id)).collect())
    })
}

pub fn cells(job: &[u8], lent: Lent) -> Outcome<Vec<u8>> {
    cells_solids(job, lent).map(|cells| cells_bytes(&cells))
}

/// The solid that an offset gives; last of all, its corners against the room.
pub fn offset_solid(cell: &[u8], distance: f64, lent: Lent) -> Outcome<Solid> {
    let cell = read_cell(cell)?;
    run(lent, &cell.tolerances, |model| {
        let source = model.give(leaf::given(&cell.solid));
        let moved = body_offset_planar(model, source, distance)?;
        let solid = solid_of(model, moved);
        room::answer(solid.corners())?;
        Ok(solid)
    })
}

pub fn offset(cell: &[u8], distance: f64, lent: Lent) -> Outcome<Vec<u8>> {
    offset_solid(cell, distance, lent).map(|solid| cells_bytes(&[solid]))
}

/// The hollow solid, one body; last of all, its corners against the room.
pub fn hollow_bodies(cell: &[u8], thickness: f64, lent: Lent) -> Outcome<Vec<Body>> {
    let cell = read_cell(cell)?;
    run(lent, &cell.tolerances, |model| {
        let source = model.give(leaf::given(&cell.solid));
        let id = body_hollow_planar(model, source, thickness)?;
        let body = body_of(model, id);
        room::answer(body.corners())?;
        Ok(vec![body])
    })
}

pub fn hollow(cell: &[u8], thickness: f64, lent: Lent) -> Outcome<Vec<u8>> {
    hollow_bodies(cell, thickness, lent).map(|bodies| bodies_bytes(&bodies))
}

fn finite(numbers: &[f64]) -> bool {
    numbers.iter().all(|x| x.is_finite())
}

/// The triangles of one facet: 1, 12, 2, 34, 3, then 000's order.
pub fn mesh_triangles(facet: &[u8], answer: Option<usize>) -> Outcome<Vec<[usize; 3]>> {
    let file = read_facet(facet)?;
    let (t, facet) = (file.tolerances, file.facet);
    let corners = facet.points.len();
    if below(answer, corners) || (answer.is_some() && corners > leaf::MESH_CORNERS) {
        return Err(12);
    }
    triangles_of(&t, &facet)
}

/// The triangles of a facet that is not too great: 2, 34, 3, then 000's order.
pub(crate) fn triangles_of(t: &Tolerances, facet: &leaf::Face) -> Outcome<Vec<[usize; 3]>> {
    fair(t)?;
    if !finite(&facet.plane) || !facet.points.iter().all(|q| finite(q)) {
        return Err(2);
    }
    leaf::plane_basis(&facet.plane)?;
    if facet.points.len() < 3 {
        return Err(3);
    }
    let shadow = |q: &leaf::Point| leaf::projected(&facet.plane, q);
    let points = facet
        .points
        .iter()
        .map(shadow)
        .collect::<Outcome<Vec<_>>>()?;
    leaf::triangles(t, &points)
}

pub fn mesh(facet: &[u8], answer: Option<usize>) -> Outcome<Vec<u8>> {
    mesh_triangles(facet, answer).map(|triangles| triangles_bytes(&triangles))
}

/// What the program `solidjob` prints for the bytes of a job.
pub fn solidjob(job: &[u8]) -> String {
    text(&fuse_bodies(job, Lent::even(SOLIDJOB_ROOM)))
}

/// Bytes of answer memory for a corner of the answer room.
pub const CORNER_BYTES: usize = 64;

/// A call of the library; an offset's distance and a hollow's thickness go with it.
#[derive(Clone, Copy, Debug, PartialEq)]
pub enum Call {
    Fuse,
    Cells,
    Offset(f64),
    Hollow(f64),
    Mesh,
}

impl Call {
    /// The answer's bytes, with a work room of so many corners and so many bytes of answer memory.
    pub fn answer(self, given: &[u8], corners: usize, memory: usize) -> Outcome<Vec<u8>> {
        let lent = Lent {
            room: Some(corners),
            answer: Some(memory / CORNER_BYTES),
        };
        self.run(given, lent)
    }

    fn run(self, given: &[u8], lent: Lent) -> Outcome<Vec<u8>> {
        match self {
            Call::Fuse => fuse(given, lent),
            Call::Cells => cells(given, lent),
            Call::Offset(distance) => offset(given, distance, lent),
            Call::Hollow(thickness) => hollow(given, thickness, lent),
            Call::Mesh => mesh(given, lent.answer),
        }
    }

    /// The least room in which the call is not refused for the room alone.
    pub fn least_room(self, given: &[u8]) -> usize {
        room::least(|| self.run(given, Lent::even(usize::MAX)))
    }
}
