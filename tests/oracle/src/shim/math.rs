//! Intervals, points, vectors and frames.
use super::big;
use super::core::{Error, Precision, Result};
use super::float::{greater, lesser};
use std::ops::{Add, Mul, Neg, Sub};

#[derive(Clone, Copy, Debug, PartialEq, Eq)]
pub enum Sign {
    Negative,
    Zero,
    Positive,
}

/// Two ends; every operation steps each end outward once, also when it was exact.
#[derive(Clone, Copy, Debug)]
pub struct Interval {
    lo: f64,
    hi: f64,
}

impl Interval {
    pub const WHOLE: Interval = Interval {
        lo: f64::NEG_INFINITY,
        hi: f64::INFINITY,
    };

    pub fn point(x: f64) -> Self {
        Interval { lo: x, hi: x }
    }

    /// The two ends as they are.
    pub fn ends(lo: f64, hi: f64) -> Self {
        Interval { lo, hi }
    }

    /// As 000 calls it: never refused, and the whole line where an end is a NaN.
    pub fn new(lo: f64, hi: f64) -> Option<Self> {
        Some(if lo.is_nan() || hi.is_nan() {
            Self::WHOLE
        } else {
            Interval { lo, hi }
        })
    }

    fn outward(lo: f64, hi: f64) -> Self {
        if lo.is_nan() || hi.is_nan() {
            return Self::WHOLE;
        }
        Interval {
            lo: lo.next_down(),
            hi: hi.next_up(),
        }
    }

    pub fn lo(&self) -> f64 {
        self.lo
    }

    pub fn hi(&self) -> f64 {
        self.hi
    }

    pub fn contains(&self, x: f64) -> bool {
        self.lo <= x && x <= self.hi
    }

    pub fn sqr(self) -> Self {
        let (p, q) = (self.lo * self.lo, self.hi * self.hi);
        if p.is_nan() || q.is_nan() {
            return Self::WHOLE;
        }
        let lo = if self.contains(0.0) {
            0.0
        } else {
            greater(lesser(p, q).next_down(), 0.0)
        };
        Interval {
            lo,
            hi: greater(p, q).next_up(),
        }
    }

    pub fn sign(&self) -> Option<Sign> {
        if self.lo > 0.0 {
            Some(Sign::Positive)
        } else if self.hi < 0.0 {
            Some(Sign::Negative)
        } else if self.lo == 0.0 && self.hi == 0.0 {
            Some(Sign::Zero)
        } else {
            None
        }
    }
}

impl Add for Interval {
    type Output = Self;
    fn add(self, other: Self) -> Self {
        Self::outward(self.lo + other.lo, self.hi + other.hi)
    }
}

impl Sub for Interval {
    type Output = Self;
    fn sub(self, other: Self) -> Self {
        Self::outward(self.lo - other.hi, self.hi - other.lo)
    }
}

impl Mul for Interval {
    type Output = Self;
    fn mul(self, other: Self) -> Self {
        let p = [
            self.lo * other.lo,
            self.lo * other.hi,
            self.hi * other.lo,
            self.hi * other.hi,
        ];
        if p.iter().any(|x| x.is_nan()) {
            return Self::WHOLE;
        }
        Self::outward(
            lesser(lesser(p[0], p[1]), lesser(p[2], p[3])),
            greater(greater(p[0], p[1]), greater(p[2], p[3])),
        )
    }
}

#[derive(Clone, Copy, Debug)]
pub struct Point2 {
    pub x: f64,
    pub y: f64,
}

impl Point2 {
    pub fn new(x: f64, y: f64) -> Self {
        Point2 { x, y }
    }
}

#[derive(Clone, Copy, Debug)]
pub struct Point3 {
    pub x: f64,
    pub y: f64,
    pub z: f64,
}

impl Point3 {
    pub fn new(x: f64, y: f64, z: f64) -> Self {
        Point3 { x, y, z }
    }
}

impl Sub for Point3 {
    type Output = Vec3;
    fn sub(self, other: Self) -> Vec3 {
        Vec3::new(self.x - other.x, self.y - other.y, self.z - other.z)
    }
}

impl Add<Vec3> for Point3 {
    type Output = Point3;
    fn add(self, v: Vec3) -> Point3 {
        Point3::new(self.x + v.x, self.y + v.y, self.z + v.z)
    }
}

#[derive(Clone, Copy, Debug)]
pub struct Vec3 {
    pub x: f64,
    pub y: f64,
    pub z: f64,
}

impl Vec3 {
    pub fn new(x: f64, y: f64, z: f64) -> Self {
        Vec3 { x, y, z }
    }

    pub fn dot(self, other: Vec3) -> f64 {
        (self.x * other.x + self.y * other.y) + self.z * other.z
    }

    pub fn cross(self, other: Vec3) -> Vec3 {
        Vec3::new(
            self.y * other.z - self.z * other.y,
            self.z * other.x - self.x * other.z,
            self.x * other.y - self.y * other.x,
        )
    }

    pub fn length(self) -> f64 {
        self.dot(self).sqrt()
    }

    /// Over its length, which must be above linear and finite.
    fn unit(self, p: &Precision) -> Result<Vec3> {
        let length = self.length();
        if length > p.linear() && length.is_finite() {
            Ok(Vec3::new(self.x / length, self.y / length, self.z / length))
        } else {
            Err(Error::frame())
        }
    }
}

impl Add for Vec3 {
    type Output = Vec3;
    fn add(self, other: Vec3) -> Vec3 {
        Vec3::new(self.x + other.x, self.y + other.y, self.z + other.z)
    }
}

impl Sub for Vec3 {
    type Output = Vec3;
    fn sub(self, other: Vec3) -> Vec3 {
        Vec3::new(self.x - other.x, self.y - other.y, self.z - other.z)
    }
}

impl Mul<f64> for Vec3 {
    type Output = Vec3;
    fn mul(self, t: f64) -> Vec3 {
        Vec3::new(self.x * t, self.y * t, self.z * t)
    }
}

impl Neg for Vec3 {
    type Output = Vec3;
    fn neg(self) -> Vec3 {
        Vec3::new(-self.x, -self.y, -self.z)
    }
}

#[derive(Clone, Copy, Debug)]
pub struct Frame {
    origin: Point3,
    x: Vec3,
    y: Vec3,
    z: Vec3,
}

impl Frame {
    pub fn new(origin: Point3, normal: Vec3, hint: Vec3, p: &Precision) -> Result<Frame> {
        let z = normal.unit(p)?;
        let x = (hint - z * hint.dot(z)).unit(p)?;
        Ok(Frame {
            origin,
            x,
            y: z.cross(x),
            z,
        })
    }

    /// The four parts as they are.
    pub fn parts(origin: Point3, x: Vec3, y: Vec3, z: Vec3) -> Frame {
        Frame { origin, x, y, z }
    }

    pub fn origin(&self) -> Point3 {
        self.origin
    }

    pub fn x(&self) -> Vec3 {
        self.x
    }

    pub fn y(&self) -> Vec3 {
        self.y
    }

    pub fn z(&self) -> Vec3 {
        self.z
    }

    pub fn to_local(self, q: Point3) -> Point3 {
        let d = q - self.origin;
        Point3::new(d.dot(self.x), d.dot(self.y), d.dot(self.z))
    }
}

pub mod predicates {
    use super::{big, Interval, Point2, Sign};

    /// The exact sign; intervals decide the clear cases, whole numbers the others. None where a
    /// number is not finite, also where intervals would decide.
    pub fn orient2d(a: Point2, b: Point2, c: Point2) -> Option<Sign> {
        if ![a, b, c].iter().all(|q| q.x.is_finite() && q.y.is_finite()) {
            return None;
        }
        let gap = |x: f64, y: f64| Interval::point(x) - Interval::point(y);
        let product = gap(b.x, a.x) * gap(c.y, a.y) - gap(b.y, a.y) * gap(c.x, a.x);
        match product.sign() {
            Some(Sign::Zero) | None => big::orient2d(a, b, c),
            certified => certified,
        }
    }
}
