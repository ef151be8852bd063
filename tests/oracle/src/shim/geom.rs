//! Planes, and the carriers of B-rep faces and edges as far as 000 names them.
use super::math::{Frame, Point3};

#[derive(Clone, Copy, Debug)]
pub struct Plane {
    frame: Frame,
}

impl Plane {
    pub fn new(frame: Frame) -> Self {
        Plane { frame }
    }

    pub fn frame(&self) -> Frame {
        self.frame
    }
}

#[derive(Clone, Copy)]
pub enum Surface {
    Plane(Plane),
}

#[derive(Clone, Copy)]
pub struct Line {
    pub start: Point3,
    pub end: Point3,
}
