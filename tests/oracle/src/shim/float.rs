//! Single f64 operations of IEEE 754 that document 01 names.

/// The lesser of two; the first where they are equal or one is a NaN.
pub fn lesser(x: f64, y: f64) -> f64 {
    if y < x {
        y
    } else {
        x
    }
}

/// The greater of two; the first where they are equal or one is a NaN.
pub fn greater(x: f64, y: f64) -> f64 {
    if x < y {
        y
    } else {
        x
    }
}
