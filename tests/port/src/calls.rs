//! The library's calls. Every slice ends right before an unreadable page; work memory may hold any bits before a call.
use crate::guard::Tail;

/// A slice of work memory: `each` words a corner of the room and `more`.
#[derive(Clone, Copy, Debug)]
pub struct Shape {
    pub name: &'static str,
    pub each: usize,
    pub more: usize,
}

impl Shape {
    pub fn words(&self, corners: usize) -> usize {
        self.each * corners + self.more
    }
}

/// What one call is handed: pointers and lengths.
struct Handed {
    given: (*const u8, usize),
    by: f64,
    corners: u64,
    work: Vec<(*mut u64, usize)>,
    answer: (*mut u8, usize),
}

/// An entry point: the slices that it takes, and how it is called.
#[derive(Clone, Copy)]
pub struct Entry {
    pub slices: &'static [Shape],
    call: unsafe fn(&Handed) -> u64,
}

/// The one table of an entry point: its number beside the bytes, and its work slices in their order.
macro_rules! entry {
    ($entry:ident = $name:ident($($by:ident)?) { $($slice:ident: $kind:ident = $each:literal * corners + $more:literal,)* }) => {
        pub const $entry: Entry = Entry {
            slices: &[$(Shape { name: stringify!($slice), each: $each, more: $more },)*],
            call: {
                extern "C" {
                    fn $name(
                        given: *const u8,
                        given_n: usize,
                        $($by: f64,)?
                        corners: u64,
                        $($slice: *mut $kind, _: usize,)*
                        answer: *mut u8,
                        answer_n: usize,
                    ) -> u64;
                }
                unsafe fn call(h: &Handed) -> u64 {
                    $(let $by = h.by;)?
                    let [$($slice),*] = h.work[..] else {
                        unreachable!("a slice for each of the table")
                    };
                    $name(
                        h.given.0,
                        h.given.1,
                        $($by,)?
                        h.corners,
                        $($slice.0.cast::<$kind>(), $slice.1,)*
                        h.answer.0,
                        h.answer.1,
                    )
                }
                call
            },
        };
    };
}

entry!(FUSE = solid_fuse() {
    rest: f64 = 3 * corners + 1984,
    spare: f64 = 11 * corners + 1664,
    dst: f64 = 11 * corners + 1664,
    held: u64 = 1 * corners + 128,
    slots: u64 = 1 * corners + 128,
    counts: u64 = 1 * corners + 128,
    sizes: u64 = 1 * corners + 1,
    seats: u64 = 1 * corners + 1,
    lengths: u64 = 1 * corners + 0,
    owners: u64 = 1 * corners + 0,
    cells: u64 = 1 * corners + 0,
    cuts: u64 = 1 * corners + 1,
    runs: u64 = 3 * corners + 0,
    keys: u64 = 2 * corners + 0,
    begins: u64 = 1 * corners + 1,
    ord: u64 = 1 * corners + 0,
    ends: u64 = 1 * corners + 0,
    marks: u64 = 1 * corners + 1,
    out: u64 = 1 * corners + 0,
    many: u64 = 1 * corners + 0,
    shells: u64 = 1 * corners + 0,
});

entry!(CELLS = solid_cells() {
    rest: f64 = 3 * corners + 1984,
    spare: f64 = 3 * corners + 1664,
    dst: f64 = 11 * corners + 1664,
    held: u64 = 1 * corners + 128,
    slots: u64 = 1 * corners + 128,
    counts: u64 = 1 * corners + 128,
    sizes: u64 = 1 * corners + 1,
    order: u64 = 2 * corners + 1024,
    chain: u64 = 2 * corners + 2048,
    head: u64 = 1 * corners + 0,
    seen: u64 = 1 * corners + 0,
    work: u64 = 1 * corners + 0,
    nodes: u64 = 1 * corners + 0,
    cuts: u64 = 1 * corners + 1,
});

entry!(OFFSET = solid_offset(distance) {
    s: f64 = 0 * corners + 3968,
    counts: u64 = 0 * corners + 128,
    dst: f64 = 0 * corners + 1984,
    sizes: u64 = 0 * corners + 64,
});

entry!(HOLLOW = solid_hollow(thickness) {
    s: f64 = 0 * corners + 3968,
    counts: u64 = 0 * corners + 128,
    dst: f64 = 0 * corners + 1984,
    sizes: u64 = 0 * corners + 64,
});

/// The mesh is told of no room.
pub const MESH: Entry = Entry {
    slices: &[],
    call: {
        extern "C" {
            fn solid_mesh(
                given: *const u8,
                given_n: usize,
                answer: *mut u8,
                answer_n: usize,
            ) -> u64;
        }
        unsafe fn call(h: &Handed) -> u64 {
            solid_mesh(h.given.0, h.given.1, h.answer.0, h.answer.1)
        }
        call
    },
};

/// How the work slices of a call are lent.
#[derive(Clone, Copy, Debug, PartialEq)]
pub enum Lending {
    /// Each as long as the room asks for, all bits zero.
    Exact,
    /// The same, with any bits.
    Soiled(u64),
    /// Each longer by some words, with any bits.
    Longer(u64),
    /// One of them a word too short.
    Short(usize),
}

/// One call: its bytes and its number, the room that it is told of and the one that is lent, the bytes of answer memory.
#[derive(Clone, Copy, Debug)]
pub struct Asked<'a> {
    pub given: &'a [u8],
    pub by: f64,
    pub corners: usize,
    pub lent: usize,
    pub memory: usize,
    pub lending: Lending,
}

/// The number of the refusal, or the answer's bytes; none where a call wrote what it should not, or left work memory soiled.
pub type Told = Option<Result<Vec<u8>, u64>>;

/// The memory of one entry point's calls.
pub struct Desk {
    entry: Entry,
    given: Tail<u8>,
    work: Vec<Tail<u64>>,
    answer: Tail<u8>,
}

/// The most bytes that are laid out, and the most words more than asked for.
const MOST_GIVEN: usize = 40_000;
const LONGER: usize = 5;

/// What stands where nothing was written.
fn untouched(i: usize) -> u8 {
    (i as u8).wrapping_mul(7) ^ 0xa5
}

/// Bits that follow no rule.
fn any_bits(seed: u64, i: usize) -> u64 {
    (seed ^ i as u64)
        .wrapping_mul(0x9e37_79b9_7f4a_7c15)
        .rotate_left(29)
        .wrapping_mul(0xbf58_476d_1ce4_e5b9)
}

impl Desk {
    /// Memory for rooms of so many corners and so many bytes of answer.
    pub fn new(entry: Entry, corners: usize, memory: usize) -> Self {
        let words = |s: &Shape| Tail::new(s.words(corners) + LONGER, 0);
        Desk {
            given: Tail::new(MOST_GIVEN, 0),
            work: entry.slices.iter().map(words).collect(),
            answer: Tail::new(memory, 0),
            entry,
        }
    }

    /// The words of each slice.
    fn lengths(&self, asked: &Asked) -> Vec<usize> {
        let words = |(i, s): (usize, &Shape)| {
            let exact = s.words(asked.lent);
            match asked.lending {
                Lending::Longer(seed) => exact + any_bits(seed, i) as usize % (LONGER + 1),
                Lending::Short(k) if k == i => exact.saturating_sub(1),
                _ => exact,
            }
        };
        self.entry.slices.iter().enumerate().map(words).collect()
    }

    /// Lays out the bytes, and what stands in the memory before the call.
    pub fn give(&mut self, asked: &Asked) {
        self.given.lay(asked.given);
        let answer = self.answer.slice_mut(asked.memory).iter_mut();
        answer.enumerate().for_each(|(i, b)| *b = untouched(i));
        let (Lending::Soiled(seed) | Lending::Longer(seed)) = asked.lending else {
            return;
        };
        let lengths = self.lengths(asked);
        for (work, n) in self.work.iter_mut().zip(lengths) {
            let words = work.slice_mut(n).iter_mut().enumerate();
            words.for_each(|(i, w)| *w = any_bits(seed, i));
        }
    }

    /// The call alone, of what was given.
    pub fn call(&mut self, asked: &Asked) -> u64 {
        let lengths = self.lengths(asked);
        let work = self.work.iter_mut().zip(lengths);
        let (given, memory) = (asked.given.len(), asked.memory);
        let handed = Handed {
            given: (self.given.end(given), given),
            by: asked.by,
            corners: asked.corners as u64,
            work: work.map(|(w, n)| (w.end(n), n)).collect(),
            answer: (self.answer.end(memory), memory),
        };
        // SAFETY: slices of the lengths that are named, each at the end of its memory.
        unsafe { (self.entry.call)(&handed) }
    }

    /// Whether all work memory of a call is zero.
    fn is_zero(&self, asked: &Asked) -> bool {
        let mut work = self.work.iter().zip(self.lengths(asked));
        work.all(|(w, n)| w.slice(n).iter().all(|&bits| bits == 0))
    }

    /// The call, laid out before and looked through after it.
    pub fn ask(&mut self, asked: &Asked) -> Told {
        self.give(asked);
        let told = self.call(asked);
        let (number, bytes) = (told % 256, usize::try_from(told / 256).ok()?);
        let answer = self.answer.slice(asked.memory);
        let written = answer.get(..bytes)?;
        let mut rest = answer.iter().enumerate().skip(bytes);
        let clean = (number == 0 || bytes == 0)
            && rest.all(|(i, &b)| b == untouched(i))
            && self.is_zero(asked);
        let told = match number {
            0 => Ok(written.to_vec()),
            _ => Err(number),
        };
        clean.then_some(told)
    }
}
