//! Families of what is asked.
use crate::random::Random;

/// A family of jobs or of cells: its name, how one is made, and how many times fewer are asked, where they take long.
pub struct Family<T> {
    pub name: &'static str,
    pub make: fn(&mut Random) -> T,
    pub fewer: usize,
}

pub const fn family<T>(name: &'static str, make: fn(&mut Random) -> T, fewer: usize) -> Family<T> {
    Family { name, make, fewer }
}
