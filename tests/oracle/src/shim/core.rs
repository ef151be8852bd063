//! Errors and tolerances.
use crate::refusal;

/// A refusal by its number in document 01.
#[derive(Clone, Copy, Debug, PartialEq, Eq)]
pub struct Error {
    number: u32,
}

pub type Result<T> = std::result::Result<T, Error>;

/// What 000 calls with a text has its number from the table; what is ours has it here.
impl Error {
    pub fn unimplemented(text: &str) -> Self {
        Self::of(refusal::number(text))
    }

    pub fn unsupported(text: &str) -> Self {
        Self::of(refusal::number(text))
    }

    pub fn degenerate(text: &str) -> Self {
        Self::of(refusal::number(text))
    }

    pub fn invalid_argument(text: &str) -> Self {
        Self::of(refusal::number(text))
    }

    pub fn internal(text: &str) -> Self {
        Self::of(refusal::number(text))
    }

    pub fn numbers() -> Self {
        Self::of(2)
    }

    pub fn counts() -> Self {
        Self::of(3)
    }

    pub fn solid() -> Self {
        Self::of(4)
    }

    pub fn frame() -> Self {
        Self::of(5)
    }

    pub fn near() -> Self {
        Self::of(6)
    }

    pub fn room() -> Self {
        Self::of(12)
    }

    fn of(number: u32) -> Self {
        Error { number }
    }

    pub fn number(self) -> u32 {
        self.number
    }
}

/// The two tolerances of a job.
#[derive(Clone, Copy, Debug)]
pub struct Precision {
    linear: f64,
    local: f64,
}

impl Precision {
    pub fn new(linear: f64, local: f64) -> Self {
        Precision { linear, local }
    }

    pub fn linear(&self) -> f64 {
        self.linear
    }

    pub fn default_local(&self) -> f64 {
        self.local
    }
}
