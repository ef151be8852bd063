//! Questions for the library's calls: the bytes, the room in corners and the bytes of answer memory.
use crate::random::Random;
use oracle::{Call, CORNER_BYTES};
use std::fmt;

#[derive(Clone)]
pub struct Question {
    pub call: Call,
    pub given: Vec<u8>,
    pub corners: usize,
    pub memory: usize,
}

/// Bytes as they are typed in.
pub fn hex(bytes: &[u8]) -> String {
    bytes.iter().map(|b| format!("{b:02x}")).collect()
}

impl fmt::Debug for Question {
    fn fmt(&self, f: &mut fmt::Formatter) -> fmt::Result {
        let (call, given) = (self.call, hex(&self.given));
        let (corners, memory) = (self.corners, self.memory);
        write!(
            f,
            "{call:?}, room {corners}, answer memory {memory}, given {given}"
        )
    }
}

/// The greatest room that is lent: enough for more than 512 cells, and for more than 4,096 points.
pub const MOST_CORNERS: usize = 32_768;

/// The most bytes of answer memory.
pub const MOST_MEMORY: usize = CORNER_BYTES * MOST_CORNERS + 8_192;

/// A room that the call fills, would overfill by a corner, or any other.
fn room(random: &mut Random, call: Call, given: &[u8]) -> usize {
    let least = call.least_room(given);
    let room = match random.below(16) {
        0..=3 => least,
        4 | 5 => least.saturating_sub(1),
        6 => random.between(0, least),
        7 => random.pick(&[0, 1, 23, 24, 720]),
        8 => random.between(0, 1_024),
        _ => least + random.below(64),
    };
    room.min(MOST_CORNERS)
}

/// Answer memory as the room asks for it, a byte less, or any other.
fn memory(random: &mut Random, corners: usize) -> usize {
    let exact = CORNER_BYTES * corners;
    match random.below(16) {
        0 => exact.saturating_sub(1),
        1 => random.between(0, exact),
        2 => exact + CORNER_BYTES - 1,
        3 => exact + random.below(8_192),
        _ => exact,
    }
}

/// The call with some room and some answer memory.
pub fn lent(random: &mut Random, call: Call, given: Vec<u8>) -> Question {
    let corners = room(random, call, &given);
    Question {
        memory: memory(random, corners),
        call,
        given,
        corners,
    }
}

/// A mesh, whose answer room is compared with the facet's corners.
pub fn meshed(random: &mut Random, given: Vec<u8>, corners: usize) -> Question {
    Question {
        memory: memory(random, corners),
        call: Call::Mesh,
        given,
        corners: 0,
    }
}
