//! The port's fusing of a list of cells. Every slice ends right before an unreadable page.
use crate::cutting::Told;
use crate::guard::Tail;

mod raw {
    extern "C" {
        pub fn leaf_fuse(
            linear: f64,
            local: f64,
            limit: usize,
            cells: usize,
            d: *const f64,
            d_n: usize,
            counts: *const u64,
            counts_n: usize,
            sizes: *mut u64,
            sizes_n: usize,
            answer: *mut u8,
            answer_n: usize,
        ) -> u64;
    }
}

/// The number that says that the slices hold no list of cells, or that the answer is too short.
pub const NONE: u64 = 64;

/// The most corners that the call has memory for.
pub const ROOM: usize = 4608;

/// The bytes that a corner of the room takes in the answer.
const CORNER: usize = 64;

/// A list of cells as it lies in memory, and its room.
#[derive(Clone, Debug)]
pub struct Given {
    pub tolerances: [f64; 2],
    pub room: usize,
    pub cells: usize,
    pub floats: Vec<f64>,
    pub counts: Vec<u64>,
    pub sizes: Vec<u64>,
}

pub struct Fuser {
    floats: Tail<f64>,
    counts: Tail<u64>,
    sizes: Tail<u64>,
    answer: Tail<u8>,
}

impl Fuser {
    pub fn new() -> Self {
        Fuser {
            floats: Tail::new(1 << 16, 0.0),
            counts: Tail::new(1 << 13, 0),
            sizes: Tail::new(1 << 13, 0),
            answer: Tail::new(CORNER * (ROOM + 1), 0),
        }
    }

    /// The call alone, with so many bytes lent for the answer, and as many sizes as the room has corners.
    fn call(&mut self, list: &Given, bytes: usize) -> u64 {
        let [linear, local] = list.tolerances;
        let mut sizes = list.sizes.clone();
        sizes.resize(sizes.len().max(list.room), 0);
        // SAFETY: slices of the length that is named, each at the end of its memory.
        unsafe {
            raw::leaf_fuse(
                linear,
                local,
                list.room,
                list.cells,
                self.floats.lay(&list.floats),
                list.floats.len(),
                self.counts.lay(&list.counts),
                list.counts.len(),
                self.sizes.lay(&sizes),
                sizes.len(),
                self.answer.end(bytes),
                bytes,
            )
        }
    }

    /// The bytes of the bodies. What a call writes is what stays the same whatever stood there before.
    pub fn fuse(&mut self, list: &Given) -> Told<Vec<u8>> {
        let bytes = CORNER * list.room;
        let [first, second] = [0u8, 255].map(|before| {
            self.answer.fill(bytes, before);
            let number = self.call(list, bytes);
            (number, self.answer.slice(bytes).to_vec())
        });
        let pairs = first.1.iter().zip(&second.1);
        let written = pairs.clone().take_while(|(a, b)| a == b).count();
        let kept = pairs.skip(written).all(|(&a, &b)| a == 0 && b == 255);
        let clean = kept && first.0 == second.0;
        match first.0 {
            0 => Told {
                answer: Ok(first.1[..written].to_vec()),
                clean,
            },
            number => Told {
                answer: Err(number),
                clean: clean && written == 0,
            },
        }
    }

    /// Whether a call with a byte too few for the answer says so and leaves it alone.
    pub fn leaves_short_alone(&mut self, list: &Given) -> bool {
        let bytes = CORNER * list.room - 1;
        self.answer.fill(bytes, 255);
        let number = self.call(list, bytes);
        number == NONE && self.answer.slice(bytes).iter().all(|&b| b == 255)
    }
}

impl Default for Fuser {
    fn default() -> Self {
        Fuser::new()
    }
}
