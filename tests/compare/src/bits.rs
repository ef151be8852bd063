//! Answers as bits, so that -0 and +0 differ; every NaN is one.

const NAN: u64 = 0x7ff8_0000_0000_0000;

pub fn bits(x: f64) -> u64 {
    if x.is_nan() {
        NAN
    } else {
        x.to_bits()
    }
}

pub fn all<const N: usize>(list: [f64; N]) -> [u64; N] {
    list.map(bits)
}
