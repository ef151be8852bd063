//! The port's number functions. An interval is `[low, high]`; a sign is 0 zero, 1 positive, 2 negative, 3 none.
use crate::guard::Guarded;

mod raw {
    extern "C" {
        pub fn leaf_next_up(x: f64) -> f64;
        pub fn leaf_next_down(x: f64) -> f64;
        pub fn leaf_abs(x: f64) -> f64;
        pub fn leaf_is_finite(x: f64) -> u64;
        pub fn leaf_lesser(x: f64, y: f64) -> f64;
        pub fn leaf_greater(x: f64, y: f64) -> f64;
        pub fn leaf_before(x: f64, y: f64) -> u64;
        pub fn leaf_bits_of(x: f64) -> u64;
        pub fn leaf_float_of(b: u64) -> f64;
        pub fn leaf_square_root(x: f64) -> f64;
        pub fn leaf_orient2d(ax: f64, ay: f64, bx: f64, by: f64, cx: f64, cy: f64) -> u64;
        pub fn leaf_add(al: f64, ah: f64, bl: f64, bh: f64, out: *mut f64, n: usize);
        pub fn leaf_sub(al: f64, ah: f64, bl: f64, bh: f64, out: *mut f64, n: usize);
        pub fn leaf_mul(al: f64, ah: f64, bl: f64, bh: f64, out: *mut f64, n: usize);
        pub fn leaf_sqr(al: f64, ah: f64, out: *mut f64, n: usize);
        pub fn leaf_reciprocal(al: f64, ah: f64, out: *mut f64, n: usize);
        pub fn leaf_sign(al: f64, ah: f64) -> u64;
        pub fn leaf_holds_zero(al: f64, ah: f64) -> u64;
        pub fn leaf_length(x: f64, y: f64, z: f64) -> f64;
        pub fn leaf_plane(
            origin: *const f64,
            origin_n: usize,
            normal: *const f64,
            normal_n: usize,
            hint: *const f64,
            hint_n: usize,
            linear: f64,
            out: *mut f64,
            out_n: usize,
        ) -> u64;
        pub fn leaf_opposite(
            plane: *const f64,
            plane_n: usize,
            linear: f64,
            out: *mut f64,
            out_n: usize,
        ) -> u64;
        pub fn leaf_to_local(
            plane: *const f64,
            plane_n: usize,
            q: *const f64,
            q_n: usize,
            out: *mut f64,
            out_n: usize,
        );
        pub fn leaf_distance(
            plane: *const f64,
            plane_n: usize,
            q: *const f64,
            q_n: usize,
            out: *mut f64,
            out_n: usize,
        );
        pub fn leaf_side(
            plane: *const f64,
            plane_n: usize,
            q: *const f64,
            q_n: usize,
            local: f64,
        ) -> u64;
        pub fn leaf_orientation(
            axl: f64,
            axh: f64,
            ayl: f64,
            ayh: f64,
            bxl: f64,
            bxh: f64,
            byl: f64,
            byh: f64,
            cxl: f64,
            cxh: f64,
            cyl: f64,
            cyh: f64,
            local: f64,
        ) -> u64;
        pub fn leaf_contains_range(
            al: f64,
            ah: f64,
            bl: f64,
            bh: f64,
            zl: f64,
            zh: f64,
            local: f64,
        ) -> u64;
        pub fn leaf_near(ax: f64, ay: f64, az: f64, bx: f64, by: f64, bz: f64, local: f64) -> u64;
    }
}

pub type Interval = [f64; 2];

// SAFETY of every call here: numbers by value, and slices of the length that is named.

pub fn next_up(x: f64) -> f64 {
    unsafe { raw::leaf_next_up(x) }
}

pub fn next_down(x: f64) -> f64 {
    unsafe { raw::leaf_next_down(x) }
}

pub fn abs(x: f64) -> f64 {
    unsafe { raw::leaf_abs(x) }
}

pub fn is_finite(x: f64) -> bool {
    unsafe { raw::leaf_is_finite(x) == 1 }
}

pub fn lesser(x: f64, y: f64) -> f64 {
    unsafe { raw::leaf_lesser(x, y) }
}

pub fn greater(x: f64, y: f64) -> f64 {
    unsafe { raw::leaf_greater(x, y) }
}

pub fn before(x: f64, y: f64) -> bool {
    unsafe { raw::leaf_before(x, y) == 1 }
}

pub fn bits_of(x: f64) -> u64 {
    unsafe { raw::leaf_bits_of(x) }
}

pub fn float_of(b: u64) -> f64 {
    unsafe { raw::leaf_float_of(b) }
}

pub fn square_root(x: f64) -> f64 {
    unsafe { raw::leaf_square_root(x) }
}

pub fn orient2d(a: [f64; 2], b: [f64; 2], c: [f64; 2]) -> u64 {
    unsafe { raw::leaf_orient2d(a[0], a[1], b[0], b[1], c[0], c[1]) }
}

pub fn sign(a: Interval) -> u64 {
    unsafe { raw::leaf_sign(a[0], a[1]) }
}

pub fn holds_zero(a: Interval) -> bool {
    unsafe { raw::leaf_holds_zero(a[0], a[1]) == 1 }
}

pub fn length(v: [f64; 3]) -> f64 {
    unsafe { raw::leaf_length(v[0], v[1], v[2]) }
}

/// 0 apart, 1 near, 6 refused.
pub fn near(a: [f64; 3], b: [f64; 3], local: f64) -> u64 {
    unsafe { raw::leaf_near(a[0], a[1], a[2], b[0], b[1], b[2], local) }
}

pub type Point = [f64; 3];

/// Origin, x, y, z.
pub type Plane = [f64; 12];

/// 0 and the plane, or the number of the refusal and zeros.
pub fn plane(origin: &Point, normal: &Point, hint: &Point, linear: f64) -> (u64, Plane) {
    let mut out = [UNTOUCHED; 12];
    let [o, n, h] = [origin, normal, hint].map(|p| p.as_ptr());
    let number = unsafe { raw::leaf_plane(o, 3, n, 3, h, 3, linear, out.as_mut_ptr(), 12) };
    (number, out)
}

pub fn opposite(plane: &Plane, linear: f64) -> (u64, Plane) {
    let mut out = [UNTOUCHED; 12];
    let number = unsafe { raw::leaf_opposite(plane.as_ptr(), 12, linear, out.as_mut_ptr(), 12) };
    (number, out)
}

pub fn to_local(plane: &Plane, q: &Point) -> Point {
    let mut out = [UNTOUCHED; 3];
    unsafe { raw::leaf_to_local(plane.as_ptr(), 12, q.as_ptr(), 3, out.as_mut_ptr(), 3) };
    out
}

pub fn distance(plane: &Plane, q: &Point) -> Interval {
    let mut out = [UNTOUCHED; 2];
    unsafe { raw::leaf_distance(plane.as_ptr(), 12, q.as_ptr(), 3, out.as_mut_ptr(), 2) };
    out
}

/// A sign's code, or 7.
pub fn side(plane: &Plane, q: &Point, local: f64) -> u64 {
    unsafe { raw::leaf_side(plane.as_ptr(), 12, q.as_ptr(), 3, local) }
}

/// A sign's code, or 33; a corner is its x and its y.
pub fn orientation(corners: &[[Interval; 2]; 3], local: f64) -> u64 {
    let [[ax, ay], [bx, by], [cx, cy]] = *corners;
    unsafe {
        raw::leaf_orientation(
            ax[0], ax[1], ay[0], ay[1], bx[0], bx[1], by[0], by[1], cx[0], cx[1], cy[0], cy[1],
            local,
        )
    }
}

pub fn contains_range(a: Interval, b: Interval, z: Interval, local: f64) -> bool {
    unsafe { raw::leaf_contains_range(a[0], a[1], b[0], b[1], z[0], z[1], local) == 1 }
}

/// A call of two intervals whose answer is an interval, and those of the port.
pub type OfTwo = unsafe extern "C" fn(f64, f64, f64, f64, *mut f64, usize);

pub const ADD: OfTwo = raw::leaf_add;

pub const MUL: OfTwo = raw::leaf_mul;

/// Where the leaves that answer an interval write it: two numbers right before an unreadable page.
pub struct Ends(Guarded<f64>);

/// What stands where nothing was written.
const UNTOUCHED: f64 = -7.5;

impl Ends {
    pub fn new() -> Self {
        Ends(Guarded::new(&[UNTOUCHED; 2]))
    }

    fn call(&mut self, f: impl FnOnce(*mut f64, usize)) -> Interval {
        f(self.0.pointer(), self.0.len());
        [self.0.slice()[0], self.0.slice()[1]]
    }

    /// Any call of two intervals.
    pub fn of_two(&mut self, f: OfTwo, a: Interval, b: Interval) -> Interval {
        self.call(|p, n| unsafe { f(a[0], a[1], b[0], b[1], p, n) })
    }

    pub fn add(&mut self, a: Interval, b: Interval) -> Interval {
        self.of_two(raw::leaf_add, a, b)
    }

    pub fn sub(&mut self, a: Interval, b: Interval) -> Interval {
        self.of_two(raw::leaf_sub, a, b)
    }

    pub fn mul(&mut self, a: Interval, b: Interval) -> Interval {
        self.of_two(raw::leaf_mul, a, b)
    }

    pub fn sqr(&mut self, a: Interval) -> Interval {
        self.call(|p, n| unsafe { raw::leaf_sqr(a[0], a[1], p, n) })
    }

    /// None where nothing was written.
    pub fn reciprocal(&mut self, a: Interval) -> Option<Interval> {
        self.0.fill(UNTOUCHED);
        let r = self.call(|p, n| unsafe { raw::leaf_reciprocal(a[0], a[1], p, n) });
        (r != [UNTOUCHED; 2]).then_some(r)
    }

    /// A slice of no or one number is left alone.
    pub fn leaves_short_alone(a: Interval, b: Interval) -> bool {
        (0..2).all(|n| {
            let mut short = Guarded::new(&[UNTOUCHED, UNTOUCHED][..n]);
            unsafe { raw::leaf_add(a[0], a[1], b[0], b[1], short.pointer(), n) };
            short.slice().iter().all(|&x| x == UNTOUCHED)
        })
    }
}

impl Default for Ends {
    fn default() -> Self {
        Ends::new()
    }
}
