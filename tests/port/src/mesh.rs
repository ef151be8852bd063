//! The port's mesh of one facet. Every slice ends right before an unreadable page.
use crate::cutting::Told;
use crate::guard::Tail;
use crate::leaves::{Plane, Point};

mod raw {
    extern "C" {
        pub fn leaf_mesh(
            plane: *const f64,
            plane_n: usize,
            linear: f64,
            local: f64,
            corners: *const f64,
            corners_n: usize,
            out: *mut u64,
            out_n: usize,
            told: *mut u64,
            told_n: usize,
        ) -> u64;
    }
}

/// Three places for each of 126 triangles.
const PLACES: usize = 378;

/// What stands where nothing was written.
const UNTOUCHED: u64 = u64::MAX;

pub struct Mesher {
    plane: Tail<f64>,
    corners: Tail<f64>,
    out: Tail<u64>,
    told: Tail<u64>,
}

impl Mesher {
    pub fn new() -> Self {
        Mesher {
            plane: Tail::new(12, 0.0),
            corners: Tail::new(1 << 12, 0.0),
            out: Tail::new(PLACES, 0),
            told: Tail::new(1, 0),
        }
    }

    pub fn give(&mut self, plane: &Plane, corners: &[Point]) {
        self.plane.lay(plane);
        self.corners.lay(corners.as_flattened());
        self.out.fill(PLACES, UNTOUCHED);
        self.told.fill(1, UNTOUCHED);
    }

    /// The call alone, of n corners that were given, with `short` places fewer than it needs.
    pub fn call(&mut self, [linear, local]: [f64; 2], n: usize, short: usize) -> u64 {
        let places = PLACES - short;
        // SAFETY: slices of the length that is named, each at the end of its memory.
        unsafe {
            raw::leaf_mesh(
                self.plane.end(12),
                12,
                linear,
                local,
                self.corners.end(3 * n),
                3 * n,
                self.out.end(places),
                places,
                self.told.end(1),
                1,
            )
        }
    }

    fn untouched(&self, from: usize) -> bool {
        let out = &self.out.slice(PLACES)[from..];
        out.iter().all(|&n| n == UNTOUCHED)
    }

    pub fn mesh(
        &mut self,
        plane: &Plane,
        tolerances: [f64; 2],
        corners: &[Point],
    ) -> Told<Vec<[usize; 3]>> {
        self.give(plane, corners);
        let number = self.call(tolerances, corners.len(), 0);
        let told = self.told.slice(1)[0];
        if number != 0 {
            return Told {
                answer: Err(number),
                clean: told == UNTOUCHED && self.untouched(0),
            };
        }
        let n = told as usize;
        let place = |i: usize| self.out.slice(PLACES)[i] as usize;
        let triangle = |i: usize| [place(3 * i), place(3 * i + 1), place(3 * i + 2)];
        Told {
            answer: Ok((0..n).map(triangle).collect()),
            clean: self.untouched(3 * n),
        }
    }

    /// Whether a call with too little memory says so and leaves it alone.
    pub fn leaves_short_alone(&mut self, plane: &Plane, corners: &[Point], t: [f64; 2]) -> bool {
        self.give(plane, corners);
        let number = self.call(t, corners.len(), 1);
        number == crate::cutting::SHORT && self.untouched(0)
    }
}

impl Default for Mesher {
    fn default() -> Self {
        Mesher::new()
    }
}
