//! The library's calls beside docs/src over the shim, both from bytes to bytes.
use crate::timed::{is_asked, row};
use gen::solid::{cube, gem, prism, Reshape};
use gen::Random;
use oracle::{
    Call, CellFile, Job, Lent, Operation, Solid, Tolerances, CORNER_BYTES, SOLIDJOB_ROOM,
};
use port::calls::{Asked, Desk, Entry, Lending, CELLS, FUSE, HOLLOW, OFFSET};

/// A room in which unions of 20-face solids are fused, for the other calls that of `solidjob`; or what the call needs.
fn room(call: Call, given: &[u8]) -> usize {
    let usual = match call {
        Call::Fuse => 8_192,
        _ => SOLIDJOB_ROOM,
    };
    call.least_room(given).max(usual)
}

/// How many times the Rust's time a call may take.
fn wish(name: &str) -> f64 {
    match name {
        "fuse, union of 20-face solids" => 1.5,
        _ => 1.0,
    }
}

/// One row: the call of these bytes in a room that suffices for most.
fn timed(name: &str, entry: Entry, call: Call, given: &[u8]) {
    timed_in(name, entry, call, given, room(call, given));
}

/// One row: the call of these bytes in a room of so many corners.
fn timed_in(name: &str, entry: Entry, call: Call, given: &[u8], corners: usize) {
    let memory = CORNER_BYTES * corners;
    let asked = Asked {
        given,
        by: match call {
            Call::Offset(by) | Call::Hollow(by) => by,
            Call::Fuse | Call::Cells | Call::Mesh => 0.0,
        },
        corners,
        lent: corners,
        memory,
        lending: Lending::Exact,
    };
    let mut desk = Desk::new(entry, corners, memory);
    desk.give(&asked);
    assert_eq!(desk.call(&asked) % 256, 0, "a timed call is refused");
    let rust = |()| call.answer(given, corners, memory);
    row(name, &[()], |()| desk.call(&asked), rust, wish(name));
}

/// Two solids with three faces at each point whose operations are answered.
fn gems(faces: usize) -> [Solid; 2] {
    let mut random = Random::new(faces as u64);
    loop {
        let (a, b) = (gem(&mut random, faces), gem(&mut random, faces));
        let pair = [a, b.shifted([0.3, 0.2, 0.1])];
        let job = Job::usual(pair[0].clone(), pair[1].clone(), Operation::Union).bytes();
        let free = Lent::UNBOUNDED;
        if oracle::cells(&job, free).is_ok() && oracle::fuse(&job, free).is_ok() {
            return pair;
        }
    }
}

/// A name, and two solids that are made where a run asks for them.
type Pair = (&'static str, fn() -> [Solid; 2]);

const PAIRS: [Pair; 4] = [
    ("boxes", || [cube(0.0, 2.0), cube(1.0, 3.0)]),
    ("8-sided prisms", || {
        let first = prism(8, 1.0, 1.0);
        [first.clone(), first.shifted([0.3, 0.2, 0.1])]
    }),
    ("10-face solids", || gems(10)),
    ("20-face solids", || gems(20)),
];

/// These operations of each pair through a call of jobs.
fn jobs(called: &str, entry: Entry, call: Call, operations: &[(&str, Operation)]) {
    for (name, pair) in PAIRS {
        for (what, operation) in operations {
            let row = format!("{called}, {what} of {name}");
            if is_asked(&row) {
                let [first, second] = pair();
                let job = Job::usual(first, second, *operation).bytes();
                timed(&row, entry, call, &job);
            }
        }
    }
}

const INTERSECTION: (&str, Operation) = ("intersection", Operation::Intersection);
const DIFFERENCE: (&str, Operation) = ("difference", Operation::Difference);
const UNION: (&str, Operation) = ("union", Operation::Union);

pub fn cells() {
    jobs("cells", CELLS, Call::Cells, &[INTERSECTION, UNION]);
}

pub fn fuse() {
    jobs("fuse", FUSE, Call::Fuse, &[INTERSECTION, DIFFERENCE, UNION]);
    let job = Job::usual(cube(0.0, 2.0), cube(1.0, 3.0), Operation::Intersection).bytes();
    let name = "fuse, intersection of boxes, 720";
    timed_in(name, FUSE, Call::Fuse, &job, SOLIDJOB_ROOM);
}

pub fn moves() {
    let solids = [
        ("a box", cube(0.0, 2.0)),
        ("a 20-face solid", gem(&mut Random::new(3), 20)),
        ("a prism of 64 faces", prism(62, 10.0, 5.0)),
    ];
    for (name, solid) in solids {
        let tolerances = Tolerances::USUAL;
        let cell = CellFile { tolerances, solid }.bytes();
        timed(
            &format!("offset of {name}"),
            OFFSET,
            Call::Offset(0.001),
            &cell,
        );
        timed(
            &format!("hollow of {name}"),
            HOLLOW,
            Call::Hollow(0.001),
            &cell,
        );
    }
}
