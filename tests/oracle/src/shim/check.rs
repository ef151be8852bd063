//! Document 01's check of a solid, in its order: 2, 3, 4, 5, 4 or 6, 7 or 4; and of a face that is given 33 or 4, request 2/13's.
use super::boundary::near;
use super::core::{Error, Precision, Result};
use super::geom::Plane;
use super::math::{Frame, Interval, Point3, Sign};
use super::topo::Solid;
use crate::mesh::{orientation, Projected};
use crate::planar::side;
use std::collections::BTreeMap;

/// The greatest size of a coordinate, 2^20.
const MOST: f64 = 1_048_576.0;

type Edge = (usize, usize);

/// Counts and turns are tested only of a solid that is given.
pub fn solid(solid: &Solid, p: &Precision, given: bool) -> Result<()> {
    require(numbers(solid), Error::numbers())?;
    require(!given || counted(solid), Error::counts())?;
    require(sound(solid), Error::solid())?;
    let planes = planes(solid, p)?;
    apart(&solid.points, p)?;
    for (face, plane) in solid.faces.iter().zip(planes) {
        sides(&solid.points, face, plane, p)?;
        if given {
            turns(&solid.points, face, plane, p)?;
        }
    }
    Ok(())
}

fn require(holds: bool, refusal: Error) -> Result<()> {
    if holds {
        Ok(())
    } else {
        Err(refusal)
    }
}

fn numbers(solid: &Solid) -> bool {
    let fair = |x: f64| x.is_finite() && x.abs() <= MOST;
    solid
        .points
        .iter()
        .all(|q| fair(q.x) && fair(q.y) && fair(q.z))
}

fn counted(solid: &Solid) -> bool {
    (4..=128).contains(&solid.points.len())
        && (4..=64).contains(&solid.faces.len())
        && solid.faces.iter().all(|f| (3..=64).contains(&f.len()))
}

fn sound(solid: &Solid) -> bool {
    let points = solid.points.len();
    let faces = &solid.faces;
    if !faces.iter().flatten().all(|&i| i < points) || !faces.iter().all(|f| distinct(f)) {
        return false;
    }
    let used = |i: usize| faces.iter().any(|f| f.contains(&i));
    let Some(edges) = edges_once(faces) else {
        return false;
    };
    (0..points).all(used)
        && edges.keys().all(|&(a, b)| edges.contains_key(&(b, a)))
        && connected(faces.len(), &edges)
        && points + faces.len() == edges.len() / 2 + 2
}

fn distinct(face: &[usize]) -> bool {
    (0..face.len()).all(|i| !face[..i].contains(&face[i]))
}

/// Each directed edge with its face; none where one occurs twice.
fn edges_once(faces: &[Vec<usize>]) -> Option<BTreeMap<Edge, usize>> {
    let mut edges = BTreeMap::new();
    for (i, face) in faces.iter().enumerate() {
        for (k, &a) in face.iter().enumerate() {
            let b = face[(k + 1) % face.len()];
            if edges.insert((a, b), i).is_some() {
                return None;
            }
        }
    }
    Some(edges)
}

/// Whether all faces are reached from the first through edges.
fn connected(faces: usize, edges: &BTreeMap<Edge, usize>) -> bool {
    let mut reached = vec![false; faces];
    let mut work = vec![0];
    while let Some(i) = work.pop() {
        if i < faces && !reached[i] {
            reached[i] = true;
            let own = edges.iter().filter(|(_, &f)| f == i);
            work.extend(own.map(|(&(a, b), _)| edges[&(b, a)]));
        }
    }
    faces > 0 && reached.into_iter().all(|r| r)
}

/// The plane of a face by its first three corners.
pub fn own_plane(points: &[Point3], p: &Precision) -> Result<Plane> {
    let [a, b, c, ..] = *points else {
        return Err(Error::frame());
    };
    let frame = Frame::new(a, (b - a).cross(c - a), b - a, p)?;
    Ok(Plane::new(frame))
}

/// The planes of a sound solid's faces.
pub fn planes(solid: &Solid, p: &Precision) -> Result<Vec<Plane>> {
    let corners = |f: &Vec<usize>| f.iter().map(|&i| solid.points[i]).collect::<Vec<_>>();
    let own = |f: &Vec<usize>| own_plane(&corners(f), p);
    solid.faces.iter().map(own).collect()
}

fn apart(points: &[Point3], p: &Precision) -> Result<()> {
    for (i, &a) in points.iter().enumerate() {
        for &b in &points[i + 1..] {
            require(!near(a, b, p)?, Error::solid())?;
        }
    }
    Ok(())
}

fn sides(points: &[Point3], face: &[usize], plane: Plane, p: &Precision) -> Result<()> {
    let mut below = false;
    for (i, &q) in points.iter().enumerate() {
        let sign = side(plane, q, p)?;
        let own = face.contains(&i);
        let allowed = sign == Sign::Zero || (sign == Sign::Negative && !own);
        require(allowed, Error::solid())?;
        below |= sign == Sign::Negative;
    }
    require(below, Error::solid())
}

/// "Each three consecutive corners, in the face's own local coordinates as points", round the face.
fn turns(points: &[Point3], face: &[usize], plane: Plane, p: &Precision) -> Result<()> {
    let flat = |&i: &usize| {
        let local = plane.frame().to_local(points[i]);
        Projected {
            x: Interval::point(local.x),
            y: Interval::point(local.y),
        }
    };
    let corners: Vec<_> = face.iter().map(flat).collect();
    let corner = |i: usize| corners[i % corners.len()];
    for i in 0..corners.len() {
        let turn = orientation(p, corner(i), corner(i + 1), corner(i + 2))?;
        require(turn != Sign::Negative, Error::solid())?;
    }
    Ok(())
}
