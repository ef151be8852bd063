//! The single functions of docs/src and of the stand-ins over plain types, for comparison one by one.
use crate::answer::Body;
use crate::calls::{body_of, triangles_of};
use crate::mesh::{self, Projected as Shadow};
use crate::planar::fuse::{self, Use};
use crate::planar::{self, Poly, Polygon};
use crate::room;
use crate::shim::core::{Error, Precision, Result};
use crate::shim::math::{Frame, Point2, Point3, Vec3};
use crate::shim::{big, boundary, check, geom, topo};

pub use crate::shim::float::{greater, lesser};
pub use crate::shim::math::{Interval, Sign};

/// An answer, or the number of a refusal.
pub type Outcome<T> = std::result::Result<T, u32>;

pub type Point = [f64; 3];

/// Origin, x, y, z.
pub type Plane = [f64; 12];

#[derive(Clone, Copy, Debug, PartialEq)]
pub struct Tolerances {
    pub linear: f64,
    pub local: f64,
}

impl Tolerances {
    /// Those of document 01's pairs, 2^-20 and 2^-18.
    pub const USUAL: Tolerances = Tolerances {
        linear: 1.0 / 1_048_576.0,
        local: 1.0 / 262_144.0,
    };
}

#[derive(Clone, Debug, PartialEq)]
pub struct Face {
    pub plane: Plane,
    pub points: Vec<Point>,
}

pub type Cell = Vec<Face>;

/// Points, and faces by the places of their corners.
#[derive(Clone, Debug, PartialEq)]
pub struct Solid {
    pub points: Vec<Point>,
    pub faces: Vec<Vec<usize>>,
}

impl Solid {
    /// All corners of all faces.
    pub fn corners(&self) -> usize {
        self.faces.iter().map(Vec::len).sum()
    }
}

/// A corner's exact plane projection, in intervals.
#[derive(Clone, Copy, Debug)]
pub struct Projected {
    pub x: Interval,
    pub y: Interval,
}

// ---- between plain types and those of docs/src

pub(crate) fn precision(t: &Tolerances) -> Precision {
    Precision::new(t.linear, t.local)
}

fn point(q: &Point) -> Point3 {
    Point3::new(q[0], q[1], q[2])
}

fn vector(v: &[f64]) -> Vec3 {
    Vec3::new(v[0], v[1], v[2])
}

fn plane(p: &Plane) -> geom::Plane {
    let origin = Point3::new(p[0], p[1], p[2]);
    let (x, y, z) = (vector(&p[3..6]), vector(&p[6..9]), vector(&p[9..12]));
    geom::Plane::new(Frame::parts(origin, x, y, z))
}

fn points(list: &[Point]) -> Vec<Point3> {
    list.iter().map(point).collect()
}

fn poly(cell: &[Face]) -> Poly {
    let polygon = |f: &Face| Polygon {
        points: points(&f.points),
        plane: plane(&f.plane),
    };
    Poly {
        faces: cell.iter().map(polygon).collect(),
    }
}

pub(crate) fn given(solid: &Solid) -> topo::Solid {
    topo::Solid {
        points: points(&solid.points),
        faces: solid.faces.clone(),
    }
}

pub(crate) fn plain_point(q: Point3) -> Point {
    [q.x, q.y, q.z]
}

fn plain_points(list: Vec<Point3>) -> Vec<Point> {
    list.into_iter().map(plain_point).collect()
}

pub(crate) fn plain_plane(p: geom::Plane) -> Plane {
    let f = p.frame();
    let (o, x, y, z) = (f.origin(), f.x(), f.y(), f.z());
    [o.x, o.y, o.z, x.x, x.y, x.z, y.x, y.y, y.z, z.x, z.y, z.z]
}

fn plain_cell(poly: Poly) -> Cell {
    let face = |f: Polygon| Face {
        plane: plain_plane(f.plane),
        points: plain_points(f.points),
    };
    poly.faces.into_iter().map(face).collect()
}

pub(crate) fn plain_solid(solid: &topo::Solid) -> Solid {
    Solid {
        points: plain_points(solid.points.clone()),
        faces: solid.faces.clone(),
    }
}

fn shadow(p: &Projected) -> Shadow {
    Shadow { x: p.x, y: p.y }
}

fn shadows(list: &[Projected]) -> Vec<Shadow> {
    list.iter().map(shadow).collect()
}

fn outcome<T>(result: Result<T>) -> Outcome<T> {
    result.map_err(Error::number)
}

fn in_room<T>(room: Option<usize>, work: impl FnOnce() -> Result<T>) -> Outcome<T> {
    outcome(room::with(room, work))
}

// ---- numbers

pub fn next_up(x: f64) -> f64 {
    x.next_up()
}

pub fn next_down(x: f64) -> f64 {
    x.next_down()
}

pub fn square_root(x: f64) -> f64 {
    x.sqrt()
}

/// Strictly before in totalOrder.
pub fn before(x: f64, y: f64) -> bool {
    x.total_cmp(&y).is_lt()
}

pub fn reciprocal(value: Interval) -> Outcome<Interval> {
    outcome(mesh::reciprocal_positive(value))
}

pub type Box3 = [Interval; 3];

/// planar.rs's `dot`, of any intervals.
pub fn dot(a: Box3, b: Box3) -> Interval {
    a[0] * b[0] + a[1] * b[1] + a[2] * b[2]
}

pub fn dot_from_zero(a: Box3, b: Box3) -> Interval {
    mesh::dot(a, b)
}

/// As `projected` writes it.
pub fn box_difference(a: Box3, b: Box3) -> Box3 {
    std::array::from_fn(|i| a[i] - b[i])
}

/// As `projected` writes it.
pub fn residual(delta: Box3, direction: Box3, parameter: Interval) -> Box3 {
    std::array::from_fn(|i| delta[i] - direction[i] * parameter)
}

/// As `plane_basis` writes it.
pub fn cross(a: Box3, b: Box3) -> Box3 {
    [
        a[1] * b[2] - a[2] * b[1],
        a[2] * b[0] - a[0] * b[2],
        a[0] * b[1] - a[1] * b[0],
    ]
}

/// The exact sign by whole numbers alone; none where a number is not finite.
pub fn orient2d(a: [f64; 2], b: [f64; 2], c: [f64; 2]) -> Option<Sign> {
    let flat = |q: [f64; 2]| Point2::new(q[0], q[1]);
    big::orient2d(flat(a), flat(b), flat(c))
}

/// The exact sign as `hull` asks for it: by intervals where they decide.
pub fn orient2d_filtered(a: [f64; 2], b: [f64; 2], c: [f64; 2]) -> Option<Sign> {
    let flat = |q: [f64; 2]| Point2::new(q[0], q[1]);
    crate::shim::math::predicates::orient2d(flat(a), flat(b), flat(c))
}

// ---- space

pub fn frame(t: &Tolerances, origin: &Point, normal: &Point, hint: &Point) -> Outcome<Plane> {
    let (normal, hint) = (vector(normal), vector(hint));
    let frame = Frame::new(point(origin), normal, hint, &precision(t));
    outcome(frame).map(|f| plain_plane(geom::Plane::new(f)))
}

/// The frame of a face from its first three corners, as `read` makes it.
pub fn face_plane(t: &Tolerances, corners: &[Point; 3]) -> Outcome<Plane> {
    let [a, b, c] = [0, 1, 2].map(|i| point(&corners[i]));
    let frame = Frame::new(a, (b - a).cross(c - a), b - a, &precision(t));
    outcome(frame).map(|f| plain_plane(geom::Plane::new(f)))
}

pub fn near(t: &Tolerances, a: &Point, b: &Point) -> Outcome<bool> {
    outcome(boundary::near(point(a), point(b), &precision(t)))
}

pub fn distance(p: &Plane, q: &Point) -> Interval {
    planar::distance(plane(p), point(q))
}

pub fn side(t: &Tolerances, p: &Plane, q: &Point) -> Outcome<Sign> {
    outcome(planar::side(plane(p), point(q), &precision(t)))
}

pub fn opposite(t: &Tolerances, p: &Plane) -> Outcome<Plane> {
    outcome(planar::opposite(plane(p), &precision(t))).map(plain_plane)
}

// ---- cells

pub fn unique(t: &Tolerances, list: &[Point]) -> Outcome<Vec<Point>> {
    outcome(planar::unique(points(list), &precision(t))).map(plain_points)
}

pub fn hull(t: &Tolerances, p: &Plane, list: &[Point]) -> Outcome<Vec<Point>> {
    outcome(planar::hull(points(list), plane(p), &precision(t))).map(plain_points)
}

/// What a cut leaves; nothing where no corner is Negative.
pub fn clip(
    t: &Tolerances,
    room: Option<usize>,
    cell: &[Face],
    p: &Plane,
) -> Outcome<Option<Cell>> {
    let part = in_room(room, || planar::clip(&poly(cell), plane(p), &precision(t)));
    Ok(part?.map(plain_cell))
}

pub fn indexed(t: &Tolerances, cell: &[Face]) -> Outcome<Solid> {
    let (points, faces) = outcome(planar::indexed(&poly(cell), &precision(t)))?;
    Ok(Solid {
        points: plain_points(points),
        faces,
    })
}

/// The solid check, with counts and turns for an input solid, without for what is made; the answer is
/// the cell with the planes of its faces.
pub fn check(t: &Tolerances, solid: &Solid, input: bool) -> Outcome<Cell> {
    let (solid, p) = (given(solid), precision(t));
    outcome(check::solid(&solid, &p, input))?;
    let planes = outcome(check::planes(&solid, &p))?;
    let face = |(f, plane): (&Vec<usize>, geom::Plane)| Face {
        plane: plain_plane(plane),
        points: f.iter().map(|&i| plain_point(solid.points[i])).collect(),
    };
    Ok(solid.faces.iter().zip(planes).map(face).collect())
}

pub fn difference(
    t: &Tolerances,
    room: Option<usize>,
    a: &[Face],
    b: &[Face],
) -> Outcome<Vec<Cell>> {
    let pieces = in_room(room, || {
        planar::difference(&poly(a), &poly(b), &precision(t))
    });
    Ok(pieces?.into_iter().map(plain_cell).collect())
}

pub fn split_cells(
    t: &Tolerances,
    room: Option<usize>,
    cells: &[Cell],
    planes: &[Plane],
) -> Outcome<Vec<Cell>> {
    let cells = cells.iter().map(|c| poly(c)).collect();
    let planes: Vec<_> = planes.iter().map(plane).collect();
    let split = in_room(room, || fuse::split_cells(cells, &planes, &precision(t)));
    Ok(split?.into_iter().map(plain_cell).collect())
}

/// The offset planes' cell, before it is indexed and checked.
pub fn offset_distances(t: &Tolerances, cell: &[Face], distances: &[f64]) -> Outcome<Cell> {
    let moved = planar::offset_distances(&poly(cell), distances, &precision(t));
    outcome(moved).map(plain_cell)
}

// ---- arrangement

pub fn conform(t: &Tolerances, list: &[Point], polygon: &[usize]) -> Outcome<Vec<usize>> {
    outcome(fuse::conform(&points(list), polygon, &precision(t)))
}

pub fn components(adjacency: &[Vec<usize>]) -> Vec<Vec<usize>> {
    fuse::components(adjacency)
}

pub fn same_cycle(a: &[usize], b: &[usize]) -> bool {
    fuse::same_cycle(a, b)
}

/// The sign of a shell's volume, its facets by the places of their corners.
pub fn volume_sign(list: &[Point], shell: &[Vec<usize>]) -> Outcome<Sign> {
    let flat = plane(&[0.0; 12]);
    let facet = |vertices: &Vec<usize>| Use {
        cell: 0,
        plane: flat,
        vertices: vertices.clone(),
    };
    let uses: Vec<_> = shell.iter().map(facet).collect();
    let uses: Vec<_> = uses.iter().collect();
    outcome(fuse::volume_sign(&uses, &points(list)))
}

/// The fused bodies of a list of cells.
pub fn fuse_cells(t: &Tolerances, room: Option<usize>, cells: &[Cell]) -> Outcome<Vec<Body>> {
    let cells: Vec<_> = cells.iter().map(|c| poly(c)).collect();
    let mut model = topo::Model::new(precision(t));
    let bodies = in_room(room, || fuse::fuse(&mut model, &cells))?;
    Ok(bodies.into_iter().map(|id| body_of(&model, id)).collect())
}

// ---- mesh

pub fn plane_basis(p: &Plane) -> Outcome<()> {
    outcome(mesh::plane_basis(&plane(p)))
}

pub fn projected(p: &Plane, q: &Point) -> Outcome<Projected> {
    let shadow = outcome(mesh::projected(point(q), &plane(p)))?;
    Ok(Projected {
        x: shadow.x,
        y: shadow.y,
    })
}

pub fn orientation(t: &Tolerances, a: &Projected, b: &Projected, c: &Projected) -> Outcome<Sign> {
    let turn = mesh::orientation(&precision(t), shadow(a), shadow(b), shadow(c));
    outcome(turn)
}

pub fn contains_range(t: &Tolerances, a: Interval, b: Interval, z: Interval) -> bool {
    mesh::contains_range(a, b, z, &precision(t)) == Ok(true)
}

pub fn simple(t: &Tolerances, list: &[Projected]) -> Outcome<()> {
    outcome(mesh::simple(&shadows(list), &precision(t)))
}

/// The ears of a polygon that turns Positive.
pub fn triangles(t: &Tolerances, list: &[Projected]) -> Outcome<Vec<[usize; 3]>> {
    outcome(mesh::triangles(
        &shadows(list),
        Sign::Positive,
        &precision(t),
    ))
}

pub(crate) const MESH_CORNERS: usize = 128;

/// The mesh of one facet: 12, then as `triangles_of`.
pub fn mesh(t: &Tolerances, facet: &Face) -> Outcome<Vec<[usize; 3]>> {
    match facet.points.len() > MESH_CORNERS {
        true => Err(12),
        false => triangles_of(t, facet),
    }
}

// ---- calls made ready, so that their time is that of docs/src alone

pub struct ReadyCut {
    cell: Poly,
    plane: geom::Plane,
    precision: Precision,
    room: usize,
}

impl ReadyCut {
    pub fn new(t: &Tolerances, room: usize, cell: &[Face], p: &Plane) -> Self {
        ReadyCut {
            cell: poly(cell),
            plane: plane(p),
            precision: precision(t),
            room,
        }
    }

    /// How many faces the part has.
    pub fn run(&self) -> Outcome<usize> {
        let work = || planar::clip(&self.cell, self.plane, &self.precision);
        let part = in_room(Some(self.room), work)?;
        Ok(part.map_or(0, |c| c.faces.len()))
    }
}

pub struct ReadyMesh {
    points: Vec<Point3>,
    plane: geom::Plane,
    precision: Precision,
}

impl ReadyMesh {
    pub fn new(t: &Tolerances, facet: &Face) -> Self {
        ReadyMesh {
            points: points(&facet.points),
            plane: plane(&facet.plane),
            precision: precision(t),
        }
    }

    /// How many triangles there are: the handedness, the projections and the triangles.
    pub fn run(&self) -> Outcome<usize> {
        let work = || {
            mesh::plane_basis(&self.plane)?;
            let shadow = |&q: &Point3| mesh::projected(q, &self.plane);
            let shadows = self.points.iter().map(shadow).collect::<Result<Vec<_>>>()?;
            mesh::triangles(&shadows, Sign::Positive, &self.precision)
        };
        outcome(work()).map(|t| t.len())
    }
}
