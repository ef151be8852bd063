//! The port's interval code written out in Rust: the same tests and the same steps on the bits, called in the same way.

const SIGN_BIT: u64 = 0x8000_0000_0000_0000;

const INF_BITS: u64 = 0x7ff0_0000_0000_0000;
const LOW_BITS: u64 = 0xfff0_0000_0000_0000;

#[derive(Clone, Copy)]
struct Interval {
    lo: f64,
    hi: f64,
}

const WHOLE: Interval = Interval {
    lo: f64::NEG_INFINITY,
    hi: f64::INFINITY,
};

fn next_bits(b: u64) -> u64 {
    if b < INF_BITS {
        return b + 1;
    }
    if SIGN_BIT < b {
        return b - 1;
    }
    if b == SIGN_BIT {
        return 1;
    }
    b
}

fn next_up(x: f64) -> f64 {
    if x.is_nan() {
        return x;
    }
    f64::from_bits(next_bits(x.to_bits()))
}

fn last_bits(n: u64) -> u64 {
    if n < SIGN_BIT {
        return if n == 0 { SIGN_BIT + 1 } else { n - 1 };
    }
    if n < LOW_BITS {
        return n + 1;
    }
    n
}

fn next_down(x: f64) -> f64 {
    if x.is_nan() {
        return x;
    }
    f64::from_bits(last_bits(x.to_bits()))
}

fn outward(l: f64, h: f64) -> Interval {
    if l.is_nan() {
        return WHOLE;
    }
    if h.is_nan() {
        return WHOLE;
    }
    Interval {
        lo: next_down(l),
        hi: next_up(h),
    }
}

fn lesser(x: f64, y: f64) -> f64 {
    if y < x {
        y
    } else {
        x
    }
}

fn greater(x: f64, y: f64) -> f64 {
    if x < y {
        y
    } else {
        x
    }
}

fn hull_of(p: f64, q: f64, r: f64, s: f64) -> Interval {
    if (p.is_nan() | q.is_nan()) | (r.is_nan() | s.is_nan()) {
        return WHOLE;
    }
    outward(
        lesser(lesser(p, q), lesser(r, s)),
        greater(greater(p, q), greater(r, s)),
    )
}

fn put(out: &mut [f64], i: Interval) {
    if out.len() >= 2 {
        out[0] = i.lo;
        out[1] = i.hi;
    }
}

#[inline(never)]
pub extern "C" fn add(al: f64, ah: f64, bl: f64, bh: f64, out: *mut f64, n: usize) {
    // SAFETY: the caller lends n numbers.
    let out = unsafe { std::slice::from_raw_parts_mut(out, n) };
    put(out, outward(al + bl, ah + bh));
}

#[inline(never)]
pub extern "C" fn mul(al: f64, ah: f64, bl: f64, bh: f64, out: *mut f64, n: usize) {
    // SAFETY: as above.
    let out = unsafe { std::slice::from_raw_parts_mut(out, n) };
    put(out, hull_of(al * bl, al * bh, ah * bl, ah * bh));
}
