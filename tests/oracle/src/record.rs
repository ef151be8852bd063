//! The records of job, cell and facet files, little-endian, as they are written.
use crate::job::{CellFile, FacetFile, Job, Operation};
use crate::leaf::{Plane, Point, Solid, Tolerances};

/// One record: its kind and its body.
#[derive(Clone, Debug, PartialEq)]
pub struct Record {
    pub kind: u8,
    pub body: Vec<u8>,
}

fn numbers(kind: u8, list: &[f64]) -> Record {
    Record {
        kind,
        body: list.iter().flat_map(|x| x.to_le_bytes()).collect(),
    }
}

impl Record {
    pub fn tolerances(t: &Tolerances) -> Self {
        numbers(1, &[t.linear, t.local])
    }

    pub fn point(q: &Point) -> Self {
        numbers(2, q)
    }

    pub fn face() -> Self {
        numbers(3, &[])
    }

    pub fn corner(index: usize) -> Self {
        let index = u16::try_from(index).expect("an index of a job fits 16 bits");
        Record {
            kind: 4,
            body: index.to_le_bytes().to_vec(),
        }
    }

    pub fn solid_ends() -> Self {
        numbers(5, &[])
    }

    pub fn operation(operation: Operation) -> Self {
        Record {
            kind: 6,
            body: vec![operation as u8],
        }
    }

    pub fn plane(plane: &Plane) -> Self {
        numbers(9, plane)
    }
}

fn solid_records(solid: &Solid) -> Vec<Record> {
    let mut out: Vec<_> = solid.points.iter().map(Record::point).collect();
    for face in &solid.faces {
        out.push(Record::face());
        out.extend(face.iter().map(|&i| Record::corner(i)));
    }
    out.push(Record::solid_ends());
    out
}

impl Job {
    /// With the tolerances of document 01's pairs.
    pub fn usual(first: Solid, second: Solid, operation: Operation) -> Self {
        Job {
            tolerances: Tolerances::USUAL,
            first,
            second,
            operation,
        }
    }

    pub fn records(&self) -> Vec<Record> {
        let mut out = vec![Record::tolerances(&self.tolerances)];
        out.extend(solid_records(&self.first));
        out.extend(solid_records(&self.second));
        out.push(Record::operation(self.operation));
        out
    }

    pub fn bytes(&self) -> Vec<u8> {
        join(&self.records())
    }
}

pub fn join(records: &[Record]) -> Vec<u8> {
    let bytes = |r: &Record| [&[r.kind], r.body.as_slice()].concat();
    records.iter().flat_map(bytes).collect()
}

impl CellFile {
    pub fn records(&self) -> Vec<Record> {
        let mut out = vec![Record::tolerances(&self.tolerances)];
        out.extend(solid_records(&self.solid));
        out
    }

    pub fn bytes(&self) -> Vec<u8> {
        join(&self.records())
    }
}

impl FacetFile {
    pub fn records(&self) -> Vec<Record> {
        let plane = Record::plane(&self.facet.plane);
        let mut out = vec![Record::tolerances(&self.tolerances), plane];
        out.extend(self.facet.points.iter().map(Record::point));
        out
    }

    pub fn bytes(&self) -> Vec<u8> {
        join(&self.records())
    }
}
