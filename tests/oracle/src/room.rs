//! The room of document 01, counted in corners: 12. Without a room the Rust runs as it is.
use crate::planar::{Poly, Polygon};
use crate::shim::core::{Error, Result};
use std::cell::Cell;

const FACE_CORNERS: usize = 128;
const CAP_POINTS: usize = 1024;
const CELL_FACES: usize = 128;

thread_local! {
    static ROOM: Cell<Option<usize>> = const { Cell::new(None) };
    /// The most corners that were asked for since `least` began.
    static MOST: Cell<usize> = const { Cell::new(0) };
}

/// Puts the room back that stood before, also when the work panics.
struct Restore(Option<usize>);

impl Drop for Restore {
    fn drop(&mut self) {
        ROOM.set(self.0);
    }
}

/// Does the work with this room, or without one.
pub fn with<T>(room: Option<usize>, work: impl FnOnce() -> T) -> T {
    let _restore = Restore(ROOM.replace(room));
    work()
}

/// The most corners that the work asks for: the least room that does not refuse it, where it had room enough.
pub fn least<T>(work: impl FnOnce() -> T) -> usize {
    MOST.set(0);
    work();
    MOST.get()
}

/// Refuses more corners than there is room for.
fn take(corners: usize) -> Result<()> {
    MOST.set(MOST.get().max(corners));
    match ROOM.get() {
        Some(room) if corners > room => Err(Error::room()),
        _ => Ok(()),
    }
}

/// Refuses in every room where the limit is passed.
fn limit(passed: bool) -> Result<()> {
    match ROOM.get() {
        Some(_) if passed => Err(Error::room()),
        _ => Ok(()),
    }
}

fn corners(faces: &[Polygon]) -> usize {
    faces.iter().map(|f| f.points.len()).sum()
}

/// One more corner of a face in a cut.
pub fn corner(had: usize) -> Result<()> {
    limit(had >= FACE_CORNERS)
}

/// One more point of a cap in a cut.
pub fn cap(had: usize) -> Result<()> {
    limit(had >= CAP_POINTS)
}

/// One more face of a cell that a cut gives.
pub fn face(had: &[Polygon], more: usize) -> Result<()> {
    limit(more > FACE_CORNERS || had.len() >= CELL_FACES)?;
    take(corners(had) + more)
}

/// A cell left whole, added face by face.
pub fn whole(faces: &[Polygon]) -> Result<()> {
    (0..faces.len()).try_for_each(|i| face(&faces[..i], faces[i].points.len()))
}

/// One more cell of a list.
pub fn cell(had: &[Poly], more: &Poly) -> Result<()> {
    let cells = had.iter().chain([more]);
    take(cells.map(|c| corners(&c.faces)).sum())
}

/// One more facet after `conform`.
pub fn facet(listed: &mut usize, more: usize) -> Result<()> {
    *listed += more;
    take(*listed)
}

/// The finished answer of an offset or a hollow.
pub fn answer(corners: usize) -> Result<()> {
    take(corners)
}
