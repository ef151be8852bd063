//! The solid check, step by step.
use crate::found::{agreed, apart, decimal, in_local, off_plane, place, refuse, require, Walk};
use oracle::{leaf, Cell, Interval, Plane, Point, Sign, Solid, Tolerances};
use std::collections::BTreeMap;

/// The greatest size of a coordinate, 2^20.
const MOST: f64 = 1_048_576.0;

/// The cell of a solid that passes; counts and turns are looked at where it was given.
pub fn check(t: &Tolerances, solid: &Solid, given: bool) -> Walk<Cell> {
    leaf::check(t, solid, given).map_err(|number| agreed(number, steps(t, solid, given)))
}

fn steps(t: &Tolerances, solid: &Solid, given: bool) -> Walk<()> {
    numbers(solid)?;
    if given {
        counted(solid)?;
    }
    indices(solid)?;
    edges(solid)?;
    for i in 0..solid.faces.len() {
        frame(t, solid, i)?;
    }
    pairs(t, &solid.points)?;
    for i in 0..solid.faces.len() {
        against(t, solid, i, given).map_err(|f| f.at(format!("face {i}")))?;
    }
    Ok(())
}

fn numbers(solid: &Solid) -> Walk<()> {
    for (i, q) in solid.points.iter().enumerate() {
        for (axis, x) in ["x", "y", "z"].into_iter().zip(q) {
            let over = decimal(x.abs() - MOST);
            let why = match x.is_finite() {
                true => format!("{over} beyond 2^20 = 1048576"),
                false => String::from("not finite"),
            };
            let place = || format!("point {i}: {axis} is {}, {why}", decimal(*x));
            require(x.abs() <= MOST, 2, place)?;
        }
    }
    Ok(())
}

fn counted(solid: &Solid) -> Walk<()> {
    let (points, faces) = (solid.points.len(), solid.faces.len());
    let few_points = || format!("{points} points, not 4 to 128");
    require((4..=128).contains(&points), 3, few_points)?;
    let few_faces = || format!("{faces} faces, not 4 to 64");
    require((4..=64).contains(&faces), 3, few_faces)?;
    for (i, face) in solid.faces.iter().enumerate() {
        let few_corners = || format!("face {i}: {} corners, not 3 to 64", face.len());
        require((3..=64).contains(&face.len()), 3, few_corners)?;
    }
    Ok(())
}

/// Places that are none, then a point twice in a face.
fn indices(solid: &Solid) -> Walk<()> {
    let points = solid.points.len();
    for (i, face) in solid.faces.iter().enumerate() {
        for v in face {
            let outside = || format!("face {i}: corner {v}, of {points} points");
            require(*v < points, 4, outside)?;
        }
    }
    for (i, face) in solid.faces.iter().enumerate() {
        for (k, v) in face.iter().enumerate() {
            let twice = || format!("face {i}: point {v} twice");
            require(!face[..k].contains(v), 4, twice)?;
        }
    }
    Ok(())
}

/// Each directed edge with its face.
type Edges = BTreeMap<(usize, usize), usize>;

/// Each directed edge once and its reverse once, every point used, all faces connected, and the sum.
fn edges(solid: &Solid) -> Walk<()> {
    let mut edges = Edges::new();
    for (i, face) in solid.faces.iter().enumerate() {
        for (k, &a) in face.iter().enumerate() {
            let b = face[(k + 1) % face.len()];
            if let Some(j) = edges.insert((a, b), i) {
                return refuse(
                    4,
                    format!("faces {j} and {i} both run from point {a} to {b}"),
                );
            }
        }
    }
    for (v, q) in solid.points.iter().enumerate() {
        let used = solid.faces.iter().any(|f| f.contains(&v));
        require(used, 4, || format!("point {v} {} is in no face", place(q)))?;
    }
    for (&(a, b), i) in &edges {
        let way = || format!("face {i} runs from point {a} to {b}, and no face runs back");
        require(edges.contains_key(&(b, a)), 4, way)?;
    }
    connected(solid.faces.len(), &edges)?;
    let (p, e, f) = (solid.points.len(), edges.len() / 2, solid.faces.len());
    let sum = || format!("{p} points - {e} edges + {f} faces is not 2");
    require(p + f == e + 2, 4, sum)
}

fn connected(faces: usize, edges: &Edges) -> Walk<()> {
    let mut reached = vec![false; faces];
    let mut work: Vec<usize> = (0..faces.min(1)).collect();
    while let Some(i) = work.pop() {
        if !std::mem::replace(&mut reached[i], true) {
            let own = edges.iter().filter(|(_, &f)| f == i);
            work.extend(own.map(|(&(a, b), _)| edges[&(b, a)]));
        }
    }
    require(faces > 0, 4, || String::from("no faces"))?;
    match reached.iter().position(|&r| !r) {
        None => Ok(()),
        Some(i) => refuse(4, format!("face {i} is not connected with face 0")),
    }
}

fn minus(a: &Point, b: &Point) -> Point {
    std::array::from_fn(|k| a[k] - b[k])
}

pub fn dot(a: &Point, b: &Point) -> f64 {
    (a[0] * b[0] + a[1] * b[1]) + a[2] * b[2]
}

pub fn cross(a: &Point, b: &Point) -> Point {
    let part = |i: usize, j: usize| a[i] * b[j] - a[j] * b[i];
    [part(1, 2), part(2, 0), part(0, 1)]
}

pub fn length(v: &Point) -> f64 {
    dot(v, v).sqrt()
}

fn frame(t: &Tolerances, solid: &Solid, i: usize) -> Walk<()> {
    let face = solid.faces[i].as_slice();
    let &[u, v, w, ..] = face else {
        return refuse(5, format!("face {i}: {} corners", face.len()));
    };
    let corners = [u, v, w].map(|k| solid.points[k]);
    let Err(number) = leaf::face_plane(t, &corners) else {
        return Ok(());
    };
    let [edge, other] = [1, 2].map(|k| minus(&corners[k], &corners[0]));
    let [area, long] = [length(&cross(&edge, &other)), length(&edge)];
    let [area, long] = [area, long].map(|x| decimal(x / t.linear));
    let place = format!(
        "face {i}: its first three corners, points {u}, {v} and {w}, span {area} linear, its first edge is \
         {long} linear long: both must be above 1"
    );
    refuse(number, place)
}

fn pairs(t: &Tolerances, points: &[Point]) -> Walk<()> {
    for (i, a) in points.iter().enumerate() {
        for (k, b) in points.iter().enumerate().skip(i + 1) {
            let near = leaf::near(t, a, b);
            let number = near.err().unwrap_or(4);
            let (p, q, gap) = (place(a), place(b), apart(t, a, b));
            let pair = || format!("points {i} {p} and {k} {q}: {gap}");
            require(near == Ok(false), number, pair)?;
        }
    }
    Ok(())
}

/// All points against the plane of a face, then its own turns where it was given.
fn against(t: &Tolerances, solid: &Solid, i: usize, given: bool) -> Walk<()> {
    let face = &solid.faces[i];
    let corners = [0, 1, 2].map(|k| solid.points[face[k]]);
    let plane = match leaf::face_plane(t, &corners) {
        Err(number) => return refuse(number, "its frame"),
        Ok(plane) => plane,
    };
    sides(t, solid, face, &plane)?;
    match given {
        true => turns(t, solid, face, &plane),
        false => Ok(()),
    }
}

/// Each three consecutive corners of a face, round it, in the coordinates of its plane.
fn turns(t: &Tolerances, solid: &Solid, face: &[usize], plane: &Plane) -> Walk<()> {
    let flat = |v: &usize| {
        let part = |k: usize| [plane[k], plane[k + 1], plane[k + 2]];
        let d = minus(&solid.points[*v], &part(0));
        let [x, y] = [3, 6].map(|k| Interval::point(dot(&d, &part(k))));
        leaf::Projected { x, y }
    };
    let flats: Vec<_> = face.iter().map(flat).collect();
    for k in 0..face.len() {
        let [a, b, c] = [k, k + 1, k + 2].map(|k| k % face.len());
        let turn = leaf::orientation(t, &flats[a], &flats[b], &flats[c]);
        let (u, v, w) = (face[a], face[b], face[c]);
        let words = || match turn {
            Ok(_) => format!("it turns right from point {u} by {v} to {w}"),
            Err(_) => format!("how it turns from point {u} by {v} to {w} is not certain"),
        };
        require(
            matches!(turn, Ok(sign) if sign != Sign::Negative),
            turn.err().unwrap_or(4),
            words,
        )?;
    }
    Ok(())
}

fn sides(t: &Tolerances, solid: &Solid, face: &[usize], plane: &Plane) -> Walk<()> {
    let mut inside = 0;
    for (k, q) in solid.points.iter().enumerate() {
        let sign = side(t, plane, q, face.contains(&k));
        let sign = sign.map_err(|f| f.at(format!("point {k} {}", place(q))))?;
        inside += usize::from(sign == Sign::Negative);
    }
    require(inside > 0, 4, || String::from("no point lies inside it"))
}

/// A point against the plane of a face, of which it may be a corner.
fn side(t: &Tolerances, w: &Plane, q: &Point, own: bool) -> Walk<Sign> {
    let off = off_plane(t, w, q);
    match leaf::side(t, w, q) {
        Err(number) => {
            let d = in_local(t, leaf::distance(w, q));
            refuse(number, format!("its distance is {d}"))
        }
        Ok(Sign::Positive) if !own => refuse(4, off),
        Ok(sign) if own && sign != Sign::Zero => refuse(4, format!("a corner of this face, {off}")),
        Ok(sign) => Ok(sign),
    }
}
