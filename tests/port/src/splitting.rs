//! The port's `split_cells`. Every slice ends right before an unreadable page.
use crate::cutting::{Told, PLANE, PLANES};
use crate::fusing::{Given, NONE};
use crate::guard::Tail;

mod raw {
    extern "C" {
        pub fn leaf_split(
            linear: f64,
            local: f64,
            limit: usize,
            planes: *const f64,
            planes_n: usize,
            cells: usize,
            d: *mut f64,
            d_n: usize,
            counts: *mut u64,
            counts_n: usize,
            sizes: *mut u64,
            sizes_n: usize,
            told: *mut u64,
            told_n: usize,
        ) -> u64;
    }
}

/// The most corners that the call has memory for.
pub const ROOM: usize = 6400;

/// What stands behind the list that is given.
const BEHIND: u64 = u64::MAX;

/// The floats of a list's faces, their numbers of corners, and the cells' numbers of faces.
pub type Parts = (Vec<f64>, Vec<u64>, Vec<u64>);

/// The floats that a list of so many corners has to be lent.
fn floats_of(room: usize) -> usize {
    11 * room + PLANES
}

pub struct Splitter {
    planes: Tail<f64>,
    floats: Tail<f64>,
    counts: Tail<u64>,
    sizes: Tail<u64>,
    told: Tail<u64>,
}

impl Splitter {
    pub fn new() -> Self {
        Splitter {
            planes: Tail::new(1 << 13, 0.0),
            floats: Tail::new(floats_of(ROOM + 1), 0.0),
            counts: Tail::new(ROOM + 129, 0),
            sizes: Tail::new(ROOM + 2, 0),
            told: Tail::new(3, 0),
        }
    }

    /// The call with its list at the front of the slices, `short` of which are a value too short.
    pub fn call(&mut self, planes: &[f64], list: &Given, short: [usize; 4]) -> u64 {
        let [linear, local] = list.tolerances;
        let floats = floats_of(list.room) - short[0];
        let counts = list.room + 128 - short[1];
        let sizes = list.room + 1 - short[2];
        let told = 3 - short[3];
        self.floats.fill(floats, f64::from_bits(BEHIND));
        self.counts.fill(counts, BEHIND);
        self.sizes.fill(sizes, BEHIND);
        self.told.fill(told, BEHIND);
        self.floats.slice_mut(floats)[..list.floats.len()].copy_from_slice(&list.floats);
        self.counts.slice_mut(counts)[..list.counts.len()].copy_from_slice(&list.counts);
        self.sizes.slice_mut(sizes)[..list.sizes.len()].copy_from_slice(&list.sizes);
        // SAFETY: slices of the length that is named, each at the end of its memory.
        unsafe {
            raw::leaf_split(
                linear,
                local,
                list.room,
                self.planes.lay(planes),
                planes.len(),
                list.cells,
                self.floats.end(floats),
                floats,
                self.counts.end(counts),
                counts,
                self.sizes.end(sizes),
                sizes,
                self.told.end(told),
                told,
            )
        }
    }

    /// The parts; a refusal tells nothing, and where no list was given it leaves everything as it was.
    pub fn split(&mut self, planes: &[f64], list: &Given) -> Told<Parts> {
        let number = self.call(planes, list, [0; 4]);
        let floats = self.floats.slice(floats_of(list.room));
        let counts = self.counts.slice(list.room + 128);
        let sizes = self.sizes.slice(list.room + 1);
        let told = self.told.slice(3);
        if number != 0 {
            let bits = |l: &[f64]| l.iter().map(|x| x.to_bits()).collect::<Vec<_>>();
            let kept = bits(&floats[..list.floats.len()]) == bits(&list.floats)
                && counts[..list.counts.len()] == list.counts
                && sizes[..list.sizes.len()] == list.sizes;
            return Told {
                answer: Err(number),
                clean: told.iter().all(|&n| n == BEHIND) && (number != NONE || kept),
            };
        }
        let [cells, faces, corners] = [0, 1, 2].map(|i| told[i] as usize);
        Told {
            answer: Ok((
                floats[..PLANE * faces + 3 * corners].to_vec(),
                counts[..faces].to_vec(),
                sizes[..cells].to_vec(),
            )),
            clean: true,
        }
    }
}

impl Default for Splitter {
    fn default() -> Self {
        Splitter::new()
    }
}
