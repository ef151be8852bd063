//! The port's `unique`, `hull` and `clip`. Every slice ends right before an unreadable page, and work memory holds any bits.
use crate::guard::Tail;
use crate::leaves::{Plane, Point};

mod raw {
    extern "C" {
        pub fn leaf_unique(
            points: *const f64,
            points_n: usize,
            local: f64,
            out: *mut f64,
            out_n: usize,
            told: *mut u64,
            told_n: usize,
        ) -> u64;
        pub fn leaf_hull(
            cap: *mut f64,
            cap_n: usize,
            points: usize,
            plane: *const f64,
            plane_n: usize,
            local: f64,
            flat: *mut f64,
            flat_n: usize,
            order: *mut u64,
            order_n: usize,
            chain: *mut u64,
            chain_n: usize,
            out: *mut f64,
            out_n: usize,
            told: *mut u64,
            told_n: usize,
        ) -> u64;
        pub fn leaf_clip(
            plane: *const f64,
            plane_n: usize,
            local: f64,
            limit: usize,
            src: *const f64,
            src_n: usize,
            from: usize,
            sizes: *const u64,
            sizes_n: usize,
            j: usize,
            faces: usize,
            dst: *mut f64,
            dst_n: usize,
            at: usize,
            counts: *mut u64,
            counts_n: usize,
            k: usize,
            face: *mut f64,
            face_n: usize,
            cap: *mut f64,
            cap_n: usize,
            flat: *mut f64,
            flat_n: usize,
            order: *mut u64,
            order_n: usize,
            chain: *mut u64,
            chain_n: usize,
            told: *mut u64,
            told_n: usize,
        ) -> u64;
    }
}

/// Not lent enough.
pub const SHORT: u64 = 64;

/// What stands where nothing was written.
const UNTOUCHED: f64 = -7.5;
const UNCOUNTED: u64 = u64::MAX;

/// The floats that a face of 128 corners takes, and a cap of 1,024 points.
const FACE: usize = 384;
const CAP: usize = 3072;

/// How many numbers a plane takes in a room: its own twelve, and its mark.
pub const PLANE: usize = 13;

/// The floats of a cell's planes at most.
pub const PLANES: usize = 128 * PLANE;

/// The most floats and numbers of one call.
const MOST: usize = 1 << 17;

pub struct Cutter {
    plane: Tail<f64>,
    src: Tail<f64>,
    sizes: Tail<u64>,
    dst: Tail<f64>,
    counts: Tail<u64>,
    face: Tail<f64>,
    cap: Tail<f64>,
    flat: Tail<f64>,
    order: Tail<u64>,
    chain: Tail<u64>,
    told: Tail<u64>,
}

/// A cell as it lies in memory: from where on, and the places that its part goes behind.
#[derive(Clone, Debug)]
pub struct Given {
    pub floats: Vec<f64>,
    pub sizes: Vec<u64>,
    pub from: usize,
    pub j: usize,
    pub faces: usize,
    pub limit: usize,
    pub at: usize,
    pub k: usize,
}

/// A part's floats and numbers of corners; nothing where none is left.
pub type Part = Option<(Vec<f64>, Vec<u64>)>;

/// The number of the refusal, or the answer; and whether all else is as it was.
#[derive(Clone, Debug)]
pub struct Told<T> {
    pub answer: Result<T, u64>,
    pub clean: bool,
}

/// A plane as a room holds it.
pub fn plane(w: &Plane, mark: f64) -> impl Iterator<Item = f64> + '_ {
    w.iter().copied().chain([mark])
}

/// A face as a room holds it: its plane, then its corners.
pub fn face<'a>(w: &'a Plane, mark: f64, corners: &'a [Point]) -> impl Iterator<Item = f64> + 'a {
    plane(w, mark).chain(corners.as_flattened().iter().copied())
}

fn as_it_was(list: &[f64]) -> bool {
    list.iter().all(|x| x.to_bits() == UNTOUCHED.to_bits())
}

fn uncounted(list: &[u64]) -> bool {
    list.iter().all(|&n| n == UNCOUNTED)
}

/// Bits that follow no rule, for work memory.
fn any_bits(seed: u64, i: usize) -> u64 {
    (seed ^ i as u64)
        .wrapping_mul(0x9e37_79b9_7f4a_7c15)
        .rotate_left(29)
        .wrapping_mul(0xbf58_476d_1ce4_e5b9)
}

impl Cutter {
    pub fn new() -> Self {
        Cutter {
            plane: Tail::new(12, 0.0),
            src: Tail::new(MOST, 0.0),
            sizes: Tail::new(MOST, 0),
            dst: Tail::new(MOST, 0.0),
            counts: Tail::new(MOST, 0),
            face: Tail::new(MOST, 0.0),
            cap: Tail::new(MOST, 0.0),
            flat: Tail::new(MOST, 0.0),
            order: Tail::new(MOST, 0),
            chain: Tail::new(MOST, 0),
            told: Tail::new(2, 0),
        }
    }

    /// Fills the work memory with bits that follow no rule.
    pub fn soil(&mut self, seed: u64) {
        for work in [&mut self.face, &mut self.cap, &mut self.flat] {
            work.each(|i| f64::from_bits(any_bits(seed, i)));
        }
        for work in [&mut self.order, &mut self.chain] {
            work.each(|i| any_bits(seed, i));
        }
    }

    /// The corners that are told, and whether nothing else was written.
    fn polygon(&self, number: u64, out: &[f64], told: &[u64]) -> Told<Vec<Point>> {
        if number != 0 {
            let clean = as_it_was(out) && uncounted(told);
            return Told {
                answer: Err(number),
                clean,
            };
        }
        let n = told[0] as usize;
        let corner = |i: usize| [out[3 * i], out[3 * i + 1], out[3 * i + 2]];
        Told {
            answer: Ok((0..n).map(corner).collect()),
            clean: as_it_was(&out[3 * n..]) && uncounted(&told[1..]),
        }
    }

    pub fn unique(&mut self, points: &[Point], local: f64) -> Told<Vec<Point>> {
        let n = 3 * points.len();
        let src = self.src.lay(points.as_flattened());
        let out = self.dst.fill(FACE, UNTOUCHED);
        let told = self.told.fill(1, UNCOUNTED);
        // SAFETY: slices of the length that is named.
        let number = unsafe { raw::leaf_unique(src, n, local, out, FACE, told, 1) };
        self.polygon(number, self.dst.slice(FACE), self.told.slice(1))
    }

    pub fn hull(&mut self, plane: &Plane, points: &[Point], local: f64) -> Told<Vec<Point>> {
        let n = points.len();
        let cap = self.cap.lay(points.as_flattened());
        let plane = self.plane.lay(plane);
        let out = self.dst.fill(FACE, UNTOUCHED);
        let told = self.told.fill(1, UNCOUNTED);
        let (flat, order, chain) = (
            self.flat.end(2 * n),
            self.order.end(n),
            self.chain.end(2 * n),
        );
        // SAFETY: as above.
        let number = unsafe {
            raw::leaf_hull(
                cap,
                3 * n,
                n,
                plane,
                12,
                local,
                flat,
                2 * n,
                order,
                n,
                chain,
                2 * n,
                out,
                FACE,
                told,
                1,
            )
        };
        self.polygon(number, self.dst.slice(FACE), self.told.slice(1))
    }

    /// Lays the cell and the places out; `call` then needs nothing but the numbers.
    pub fn give(&mut self, plane: &Plane, cell: &Given) {
        self.plane.lay(plane);
        self.src.lay(&cell.floats);
        self.sizes.lay(&cell.sizes);
        self.dst.fill(places(cell), UNTOUCHED);
        self.counts.fill(cell.k + 128, UNCOUNTED);
        self.told.fill(2, UNCOUNTED);
    }

    /// The call alone, with `short` floats fewer than it needs for its answer.
    pub fn call(&mut self, cell: &Given, local: f64, short: usize) -> u64 {
        let (src_n, sizes_n) = (cell.floats.len(), cell.sizes.len());
        let (dst_n, counts_n) = (places(cell) - short, cell.k + 128);
        // SAFETY: slices of the length that is named, each at the end of its memory.
        unsafe {
            raw::leaf_clip(
                self.plane.end(12),
                12,
                local,
                cell.limit,
                self.src.end(src_n),
                src_n,
                cell.from,
                self.sizes.end(sizes_n),
                sizes_n,
                cell.j,
                cell.faces,
                self.dst.end(dst_n),
                dst_n,
                cell.at,
                self.counts.end(counts_n),
                counts_n,
                cell.k,
                self.face.end(FACE),
                FACE,
                self.cap.end(CAP),
                CAP,
                self.flat.end(2048),
                2048,
                self.order.end(1024),
                1024,
                self.chain.end(2048),
                2048,
                self.told.end(2),
                2,
            )
        }
    }

    pub fn clip(&mut self, plane: &Plane, cell: &Given, local: f64) -> Told<Part> {
        self.give(plane, cell);
        let number = self.call(cell, local, 0);
        let (dst, counts) = (
            self.dst.slice(places(cell)),
            self.counts.slice(cell.k + 128),
        );
        let (before, behind) = dst.split_at(cell.at);
        let (counted, count) = counts.split_at(cell.k);
        let told = self.told.slice(2);
        let kept = as_it_was(before) && uncounted(counted);
        if number != 0 {
            // what a refusal leaves behind the places is free, but not where too little was lent
            let alone = number != SHORT || (as_it_was(behind) && uncounted(count));
            return Told {
                answer: Err(number),
                clean: kept && alone && uncounted(told),
            };
        }
        let [faces, corners] = [told[0] as usize, told[1] as usize];
        let n = PLANE * faces + 3 * corners;
        let clean = kept && as_it_was(&behind[n..]) && uncounted(&count[faces..]);
        let part = (faces > 0).then(|| (behind[..n].to_vec(), count[..faces].to_vec()));
        Told {
            answer: Ok(part),
            clean,
        }
    }
}

/// The floats that a call has to lend for its answer.
fn places(cell: &Given) -> usize {
    cell.at + PLANES + 3 * cell.limit
}

impl Default for Cutter {
    fn default() -> Self {
        Cutter::new()
    }
}
