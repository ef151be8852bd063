//! Where bytes are no job, cell or facet.
use crate::found::{require, Found, Walk};

/// The most bytes of a file.
const MOST: usize = 32_768;

const RECORDS: [(u8, &str, usize); 7] = [
    (1, "tolerances", 16),
    (2, "a point", 24),
    (3, "a face", 0),
    (4, "a corner", 2),
    (5, "the end of a solid", 0),
    (6, "an operation", 1),
    (9, "a plane", 96),
];

/// What a file may be.
#[derive(Clone, Copy, PartialEq)]
pub enum Shape {
    Job,
    Cell,
    Facet,
}

struct Reader<'a> {
    bytes: &'a [u8],
    at: usize,
}

type Read = Result<(), String>;

impl Reader<'_> {
    fn next(&self) -> Option<u8> {
        self.bytes.get(self.at).copied()
    }

    fn found(&self) -> String {
        match self.next() {
            None => String::from("the end of the file"),
            Some(kind) => match RECORDS.iter().find(|r| r.0 == kind) {
                Some((_, name, _)) => format!("kind {kind}, {name}"),
                None => format!("kind {kind}, which there is not"),
            },
        }
    }

    fn take(&mut self, kind: u8) -> Read {
        let (_, name, size) = RECORDS.iter().find(|r| r.0 == kind).expect("a known kind");
        if self.next() != Some(kind) {
            return Err(format!(
                "byte {}: {}, where {name} should stand",
                self.at,
                self.found()
            ));
        }
        let left = self.bytes.len() - self.at - 1;
        if left < *size {
            return Err(format!(
                "byte {}: {name} is cut short, {left} of its {size} bytes are there",
                self.at
            ));
        }
        self.at += 1 + size;
        Ok(())
    }

    fn every(&mut self, kind: u8) -> Read {
        while self.next() == Some(kind) {
            self.take(kind)?;
        }
        Ok(())
    }

    fn solid(&mut self) -> Read {
        self.every(2)?;
        while self.next() == Some(3) {
            self.take(3)?;
            self.every(4)?;
        }
        self.take(5)
    }

    fn operation(&mut self) -> Read {
        self.take(6)?;
        match self.bytes[self.at - 1] {
            1..=3 => Ok(()),
            n => Err(format!("byte {}: operation {n}, not 1 to 3", self.at - 1)),
        }
    }

    fn file(&mut self, shape: Shape) -> Read {
        self.take(1)?;
        match shape {
            Shape::Job => {
                self.solid()?;
                self.solid()?;
                self.operation()?;
            }
            Shape::Cell => self.solid()?,
            Shape::Facet => {
                self.take(9)?;
                self.every(2)?;
            }
        }
        match self.next() {
            None => Ok(()),
            Some(_) => Err(format!(
                "byte {}: {}, where the file should end",
                self.at,
                self.found()
            )),
        }
    }
}

/// Whether the bytes are of this shape, and where not.
pub fn read(bytes: &[u8], shape: Shape) -> Walk<()> {
    let size = bytes.len();
    require(size <= MOST, 1, || format!("{size} bytes, {MOST} at most"))?;
    let mut reader = Reader { bytes, at: 0 };
    reader.file(shape).map_err(|why| Found::new(1, why))
}
