//! The port's functions over arrays of three intervals and over a face's corners.
use crate::guard::Guarded;
use crate::leaves::{Interval, Plane, Point};

mod raw {
    extern "C" {
        pub fn leaf_contains(al: f64, ah: f64, x: f64) -> u64;
        pub fn leaf_dot(
            a: *const f64,
            a_n: usize,
            b: *const f64,
            b_n: usize,
            out: *mut f64,
            out_n: usize,
        );
        pub fn leaf_dot_from_zero(
            a: *const f64,
            a_n: usize,
            b: *const f64,
            b_n: usize,
            out: *mut f64,
            out_n: usize,
        );
        pub fn leaf_difference(
            a: *const f64,
            a_n: usize,
            b: *const f64,
            b_n: usize,
            out: *mut f64,
            out_n: usize,
        );
        pub fn leaf_cross(
            a: *const f64,
            a_n: usize,
            b: *const f64,
            b_n: usize,
            out: *mut f64,
            out_n: usize,
        );
        pub fn leaf_residual(
            delta: *const f64,
            delta_n: usize,
            direction: *const f64,
            direction_n: usize,
            pl: f64,
            ph: f64,
            out: *mut f64,
            out_n: usize,
        );
        pub fn leaf_face_plane(
            a: *const f64,
            a_n: usize,
            b: *const f64,
            b_n: usize,
            c: *const f64,
            c_n: usize,
            linear: f64,
            out: *mut f64,
            out_n: usize,
        ) -> u64;
    }
}

/// x, y and z.
pub type Box3 = [Interval; 3];

/// What stands where nothing was written.
const UNTOUCHED: f64 = -7.5;

// SAFETY of every call here: numbers by value, and slices of the length that is named.

pub fn contains(a: Interval, x: f64) -> bool {
    unsafe { raw::leaf_contains(a[0], a[1], x) == 1 }
}

/// 0 and the plane, or the number of the refusal and zeros.
pub fn face_plane([a, b, c]: &[Point; 3], linear: f64) -> (u64, Plane) {
    let mut out = [UNTOUCHED; 12];
    let [a, b, c] = [a, b, c].map(|p| p.as_ptr());
    let number = unsafe { raw::leaf_face_plane(a, 3, b, 3, c, 3, linear, out.as_mut_ptr(), 12) };
    (number, out)
}

/// Two arrays and the answer's place, each right before an unreadable page.
pub struct Boxes {
    a: Guarded<f64>,
    b: Guarded<f64>,
    out: Guarded<f64>,
}

type Call = unsafe extern "C" fn(*const f64, usize, *const f64, usize, *mut f64, usize);

impl Boxes {
    pub fn new() -> Self {
        let [a, b, out] = [(); 3].map(|()| Guarded::new(&[UNTOUCHED; 6]));
        Boxes { a, b, out }
    }

    fn give(&mut self, a: &Box3, b: &Box3) {
        self.a.write(a.as_flattened());
        self.b.write(b.as_flattened());
        self.out.fill(UNTOUCHED);
    }

    fn call(&mut self, f: Call, a: &Box3, b: &Box3) -> [f64; 6] {
        self.give(a, b);
        unsafe {
            f(
                self.a.pointer(),
                6,
                self.b.pointer(),
                6,
                self.out.pointer(),
                6,
            )
        };
        self.told()
    }

    fn told(&self) -> [f64; 6] {
        std::array::from_fn(|i| self.out.slice()[i])
    }

    /// An interval, and four numbers that are left alone.
    pub fn dot(&mut self, a: &Box3, b: &Box3) -> [f64; 6] {
        self.call(raw::leaf_dot, a, b)
    }

    pub fn dot_from_zero(&mut self, a: &Box3, b: &Box3) -> [f64; 6] {
        self.call(raw::leaf_dot_from_zero, a, b)
    }

    pub fn difference(&mut self, a: &Box3, b: &Box3) -> [f64; 6] {
        self.call(raw::leaf_difference, a, b)
    }

    pub fn cross(&mut self, a: &Box3, b: &Box3) -> [f64; 6] {
        self.call(raw::leaf_cross, a, b)
    }

    pub fn residual(&mut self, delta: &Box3, direction: &Box3, by: Interval) -> [f64; 6] {
        self.give(delta, direction);
        let (a, b) = (self.a.pointer(), self.b.pointer());
        let out = self.out.pointer();
        unsafe { raw::leaf_residual(a, 6, b, 6, by[0], by[1], out, 6) };
        self.told()
    }
}

impl Default for Boxes {
    fn default() -> Self {
        Boxes::new()
    }
}

/// An interval where the answer is one: the numbers behind it are as they were.
pub fn alone(r: [f64; 6]) -> Option<Interval> {
    (r[2..] == [UNTOUCHED; 4]).then_some([r[0], r[1]])
}
