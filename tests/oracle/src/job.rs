//! A plain model of the job file: a call that does not fit it gives 1.
use crate::leaf::{Face, Outcome, Plane, Point, Solid, Tolerances};

/// The most bytes of a job.
const MOST: usize = 32_768;

#[derive(Clone, Copy, Debug, PartialEq, Eq)]
pub enum Operation {
    Intersection = 1,
    Difference = 2,
    Union = 3,
}

impl Operation {
    pub const ALL: [Operation; 3] = [
        Operation::Intersection,
        Operation::Difference,
        Operation::Union,
    ];
}

#[derive(Clone, Debug, PartialEq)]
pub struct Job {
    pub tolerances: Tolerances,
    pub first: Solid,
    pub second: Solid,
    pub operation: Operation,
}

#[derive(Clone, Debug, PartialEq)]
pub struct CellFile {
    pub tolerances: Tolerances,
    pub solid: Solid,
}

#[derive(Clone, Debug, PartialEq)]
pub struct FacetFile {
    pub tolerances: Tolerances,
    pub facet: Face,
}

/// The bytes that are left.
struct Reader<'a>(&'a [u8]);

impl<'a> Reader<'a> {
    fn new(bytes: &'a [u8]) -> Outcome<Self> {
        if bytes.len() > MOST {
            return Err(1);
        }
        Ok(Reader(bytes))
    }

    fn kind(&self) -> Option<u8> {
        self.0.first().copied()
    }

    fn take<const N: usize>(&mut self) -> Outcome<[u8; N]> {
        let (body, left) = self.0.split_first_chunk().ok_or(1u32)?;
        self.0 = left;
        Ok(*body)
    }

    /// The kind of the next record, which must be this one.
    fn expect(&mut self, kind: u8) -> Outcome<()> {
        match self.take()? {
            [k] if k == kind => Ok(()),
            _ => Err(1),
        }
    }

    fn numbers<const N: usize>(&mut self) -> Outcome<[f64; N]> {
        let mut out = [0.0; N];
        for x in &mut out {
            *x = f64::from_le_bytes(self.take()?);
        }
        Ok(out)
    }

    fn tolerances(&mut self) -> Outcome<Tolerances> {
        self.expect(1)?;
        let [linear, local] = self.numbers()?;
        Ok(Tolerances { linear, local })
    }

    fn points(&mut self) -> Outcome<Vec<Point>> {
        let mut points = Vec::new();
        while self.kind() == Some(2) {
            self.expect(2)?;
            points.push(self.numbers()?);
        }
        Ok(points)
    }

    fn face(&mut self) -> Outcome<Vec<usize>> {
        self.expect(3)?;
        let mut corners = Vec::new();
        while self.kind() == Some(4) {
            self.expect(4)?;
            corners.push(usize::from(u16::from_le_bytes(self.take()?)));
        }
        Ok(corners)
    }

    fn solid(&mut self) -> Outcome<Solid> {
        let points = self.points()?;
        let mut faces = Vec::new();
        while self.kind() == Some(3) {
            faces.push(self.face()?);
        }
        self.expect(5)?;
        Ok(Solid { points, faces })
    }

    fn operation(&mut self) -> Outcome<Operation> {
        self.expect(6)?;
        match self.take()? {
            [1] => Ok(Operation::Intersection),
            [2] => Ok(Operation::Difference),
            [3] => Ok(Operation::Union),
            _ => Err(1),
        }
    }

    fn plane(&mut self) -> Outcome<Plane> {
        self.expect(9)?;
        self.numbers()
    }

    /// What was read, where nothing is left.
    fn end<T>(&self, read: T) -> Outcome<T> {
        match self.0 {
            [] => Ok(read),
            _ => Err(1),
        }
    }
}

/// A job: tolerances, two solids, an operation.
pub fn read_job(bytes: &[u8]) -> Outcome<Job> {
    let mut r = Reader::new(bytes)?;
    let job = Job {
        tolerances: r.tolerances()?,
        first: r.solid()?,
        second: r.solid()?,
        operation: r.operation()?,
    };
    r.end(job)
}

/// A cell: tolerances, one solid.
pub fn read_cell(bytes: &[u8]) -> Outcome<CellFile> {
    let mut r = Reader::new(bytes)?;
    let cell = CellFile {
        tolerances: r.tolerances()?,
        solid: r.solid()?,
    };
    r.end(cell)
}

/// A facet: tolerances, a plane (kind 9, origin, x, y, z), points.
pub fn read_facet(bytes: &[u8]) -> Outcome<FacetFile> {
    let mut r = Reader::new(bytes)?;
    let facet = FacetFile {
        tolerances: r.tolerances()?,
        facet: Face {
            plane: r.plane()?,
            points: r.points()?,
        },
    };
    r.end(facet)
}
