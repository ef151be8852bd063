//! Answers, their bytes, and the text that `solidjob` prints.
use crate::leaf::{Face, Outcome, Solid};
use std::fmt::Write;

/// A facet: its plane and its cycle of corners.
pub type Facet = Face;

#[derive(Clone, Debug, PartialEq)]
pub struct Shell {
    pub outward: bool,
    pub facets: Vec<Facet>,
}

#[derive(Clone, Debug, PartialEq)]
pub struct Body {
    pub shells: Vec<Shell>,
}

impl Body {
    /// All corners of all facets.
    pub fn corners(&self) -> usize {
        let facets = self.shells.iter().flat_map(|s| &s.facets);
        facets.map(|f| f.points.len()).sum()
    }
}

fn put_count(out: &mut Vec<u8>, count: usize) {
    let count = u32::try_from(count).expect("a count of an answer fits 32 bits");
    out.extend(count.to_le_bytes());
}

fn put_numbers(out: &mut Vec<u8>, numbers: &[f64]) {
    numbers.iter().for_each(|x| out.extend(x.to_le_bytes()));
}

fn put_facet(out: &mut Vec<u8>, facet: &Facet) {
    put_numbers(out, &facet.plane);
    put_count(out, facet.points.len());
    facet.points.iter().for_each(|q| put_numbers(out, q));
}

/// Bodies, their shells, their facets, each with its plane and its corners.
pub fn bodies_bytes(bodies: &[Body]) -> Vec<u8> {
    let mut out = Vec::new();
    for body in bodies {
        put_count(&mut out, body.shells.len());
        for shell in &body.shells {
            out.push(u8::from(shell.outward));
            put_count(&mut out, shell.facets.len());
            shell.facets.iter().for_each(|f| put_facet(&mut out, f));
        }
    }
    out
}

/// The first `n` bytes, and what is left.
fn front<'a>(bytes: &mut &'a [u8], n: usize) -> Option<&'a [u8]> {
    let (first, rest) = bytes.split_at_checked(n)?;
    *bytes = rest;
    Some(first)
}

fn take_count(bytes: &mut &[u8]) -> Option<usize> {
    let count = front(bytes, 4)?.try_into().ok()?;
    Some(u32::from_le_bytes(count) as usize)
}

fn take_numbers<const N: usize>(bytes: &mut &[u8]) -> Option<[f64; N]> {
    let mut out = [0.0; N];
    for x in &mut out {
        *x = f64::from_le_bytes(front(bytes, 8)?.try_into().ok()?);
    }
    Some(out)
}

fn take_facet(bytes: &mut &[u8]) -> Option<Facet> {
    let plane = take_numbers(bytes)?;
    let corners = take_count(bytes)?;
    let points = (0..corners)
        .map(|_| take_numbers(bytes))
        .collect::<Option<_>>()?;
    Some(Facet { plane, points })
}

fn take_shell(bytes: &mut &[u8]) -> Option<Shell> {
    let outward = front(bytes, 1)? == [1];
    let facets = take_count(bytes)?;
    let facets = (0..facets)
        .map(|_| take_facet(bytes))
        .collect::<Option<_>>()?;
    Some(Shell { outward, facets })
}

/// The bodies whose bytes these are; none where they end too early.
pub fn read_bodies(mut bytes: &[u8]) -> Option<Vec<Body>> {
    let mut out = Vec::new();
    while !bytes.is_empty() {
        let shells = take_count(&mut bytes)?;
        let shells = (0..shells)
            .map(|_| take_shell(&mut bytes))
            .collect::<Option<_>>()?;
        out.push(Body { shells });
    }
    Some(out)
}

/// Cells, their points, their faces by the places of their corners.
pub fn cells_bytes(cells: &[Solid]) -> Vec<u8> {
    let mut out = Vec::new();
    for cell in cells {
        put_count(&mut out, cell.points.len());
        cell.points.iter().for_each(|q| put_numbers(&mut out, q));
        put_count(&mut out, cell.faces.len());
        for face in &cell.faces {
            put_count(&mut out, face.len());
            face.iter().for_each(|&i| put_count(&mut out, i));
        }
    }
    out
}

/// Three corner places for each triangle.
pub fn triangles_bytes(triangles: &[[usize; 3]]) -> Vec<u8> {
    let mut out = Vec::new();
    triangles
        .iter()
        .flatten()
        .for_each(|&i| put_count(&mut out, i));
    out
}

/// What `solidjob` prints of an answer or a refusal.
pub fn text(answer: &Outcome<Vec<Body>>) -> String {
    let bodies = match answer {
        Ok(bodies) => bodies.as_slice(),
        Err(number) => return format!("answer {number}\n"),
    };
    let mut out = String::from("answer 0\n");
    for (i, body) in bodies.iter().enumerate() {
        let line = writeln!(out, "body {} shells {}", i + 1, body.shells.len());
        line.expect("a string takes every line");
        for (j, shell) in body.shells.iter().enumerate() {
            let way = if shell.outward { "outward" } else { "inward" };
            let facets = shell.facets.len();
            let line = writeln!(out, "shell {} {way} facets {facets}", j + 1);
            line.expect("a string takes every line");
        }
    }
    out
}
