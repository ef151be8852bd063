//! Where the oracle refuses a job, a cell or a facet, in words: the steps of docs/src are walked once more through the oracle's
//! single functions, in their order, until one refuses. The oracle's own call says the number; a walk that ends with another
//! has not found the place, and that is said.
mod arrange;
mod bytes;
mod check;
mod cut;
mod facet;
mod found;
mod moved;

use bytes::Shape;
use check::check;
use cut::Ground;
use found::{agreed, decimal, require, Found, Names, Walk};
use oracle::{leaf, Call, Cell, CellFile, Interval, Job, Lent, Sign, Solid, Tolerances};

pub use found::UNKNOWN;

/// The first line of every output.
pub const FIRST: &str =
    "explain: outside the proof: the Rust of docs/src, run again over tests/oracle, \
                         says where it refuses; places are counted from 0";

/// What is asked of a file.
#[derive(Clone, Copy, Debug)]
pub enum Asked {
    Fuse,
    Cells,
    Check,
    Offset(f64),
    Hollow(f64),
    Mesh,
}

impl Asked {
    /// What a file is for, where no call is named.
    pub fn of(bytes: &[u8]) -> Asked {
        let is = |shape| bytes::read(bytes, shape).is_ok();
        if is(Shape::Cell) {
            Asked::Check
        } else if is(Shape::Facet) {
            Asked::Mesh
        } else {
            Asked::Fuse
        }
    }

    fn shape(self) -> Shape {
        match self {
            Asked::Fuse | Asked::Cells => Shape::Job,
            Asked::Mesh => Shape::Facet,
            _ => Shape::Cell,
        }
    }

    /// The oracle's number, without a room.
    fn number(self, bytes: &[u8]) -> u32 {
        let free = Lent::UNBOUNDED;
        let answer = match self {
            Asked::Fuse => oracle::fuse(bytes, free),
            Asked::Cells => oracle::cells(bytes, free),
            Asked::Check => return check_number(bytes),
            Asked::Offset(by) => oracle::offset(bytes, by, free),
            Asked::Hollow(by) => oracle::hollow(bytes, by, free),
            Asked::Mesh => oracle::mesh(bytes, Some(usize::MAX)),
        };
        answer.err().unwrap_or(0)
    }

    /// The call, where it takes a room.
    fn in_room(self) -> Option<Call> {
        match self {
            Asked::Fuse => Some(Call::Fuse),
            Asked::Cells => Some(Call::Cells),
            Asked::Offset(by) => Some(Call::Offset(by)),
            Asked::Hollow(by) => Some(Call::Hollow(by)),
            Asked::Check | Asked::Mesh => None,
        }
    }
}

fn check_number(bytes: &[u8]) -> u32 {
    let number = |file: CellFile| {
        fair(&file.tolerances).map_err(|f| f.number)?;
        leaf::check(&file.tolerances, &file.solid, true)
    };
    oracle::read_cell(bytes).and_then(number).err().unwrap_or(0)
}

fn fair(t: &Tolerances) -> Walk<()> {
    let (least, most) = (2f64.powi(-40), 2f64.powi(-4));
    let holds = least <= t.linear && t.linear <= t.local && t.local <= most;
    let [linear, local] = [t.linear, t.local].map(decimal);
    let rule = "2^-40 <= linear <= local <= 2^-4 must hold";
    require(holds, 2, || {
        format!("linear is {linear}, local is {local}: {rule}")
    })
}

/// A given solid, checked and named.
fn taken(t: &Tolerances, names: &mut Names, solid: &Solid, which: &str) -> Walk<Cell> {
    let cell = check(t, solid, true).map_err(|f| f.at(format!("the check of the {which}")))?;
    names.add(solid, &cell, &format!("of the {which}"));
    Ok(cell)
}

fn walk_job(job: &Job, asked: Asked) -> Walk<()> {
    let t = &job.tolerances;
    fair(t)?;
    let mut names = Names::default();
    let first = taken(t, &mut names, &job.first, "first solid")?;
    let second = taken(t, &mut names, &job.second, "second solid")?;
    let ground = Ground { t, names: &names };
    let cells = ground.cells(&first, &second, job.operation)?;
    if let Asked::Cells = asked {
        for (i, cell) in cells.iter().enumerate() {
            let stage = format!("the check of cell {i} of {}", cells.len());
            ground.build(cell).map_err(|f| f.at(stage))?;
        }
        return Ok(());
    }
    let planes: Vec<_> = first.iter().chain(&second).map(|f| f.plane).collect();
    let stage = |f: Found| f.at("splitting the cells by the planes of both solids");
    let cells = ground.split(cells, &planes).map_err(stage)?;
    ground.fuse(&cells).map_err(|f| f.at("fusing the cells"))
}

fn walk_cell(file: &CellFile, asked: Asked) -> Walk<()> {
    let t = &file.tolerances;
    fair(t)?;
    if let Asked::Hollow(wall) = asked {
        let above = Interval::point(wall) - Interval::point(t.linear);
        let thick = wall.is_finite() && above.sign() == Some(Sign::Positive);
        let words = || format!("the wall is {} linear", decimal(wall / t.linear));
        require(thick, 28, words)?;
    }
    let mut names = Names::default();
    let cell = taken(t, &mut names, &file.solid, "solid")?;
    let ground = Ground { t, names: &names };
    match asked {
        Asked::Offset(by) => {
            let moved = ground.offset(&cell, by)?;
            let solid = ground.build(&moved);
            solid.map_err(|f| f.at("the check of the moved solid"))?;
            Ok(())
        }
        Asked::Hollow(wall) => ground.hollow(&cell, wall),
        _ => Ok(()),
    }
}

fn walk(bytes: &[u8], asked: Asked) -> Walk<()> {
    bytes::read(bytes, asked.shape()).map_err(|f| f.at("the bytes"))?;
    let unread = |number: u32| Found::new(number, UNKNOWN);
    match asked.shape() {
        Shape::Job => walk_job(&oracle::read_job(bytes).map_err(unread)?, asked),
        Shape::Cell => walk_cell(&oracle::read_cell(bytes).map_err(unread)?, asked),
        Shape::Facet => {
            let file = oracle::read_facet(bytes).map_err(unread)?;
            fair(&file.tolerances)?;
            facet::mesh(bytes, &file).map_err(|f| f.at("the mesh of the facet"))
        }
    }
}

/// What a number says, as include/solid.h has it.
fn reason(number: u32) -> &'static str {
    let header = include_str!("../../../include/solid.h");
    let list = header.split("words[] = {").nth(1).unwrap_or("");
    let list = list.split('}').next().unwrap_or("");
    let mut words = list.split('"').skip(1).step_by(2);
    words.nth(number as usize).unwrap_or("")
}

/// What room an answered call takes.
fn room(call: Call, bytes: &[u8]) -> String {
    match call.answer(bytes, 1 << 40, usize::MAX) {
        Err(12) => {
            "in every room 12: a face of 129 corners, a cap of 1,025 points or a cell of 129 faces"
                .into()
        }
        _ => format!(
            "a room of {} corners suffices, a smaller one gives 12",
            call.least_room(bytes)
        ),
    }
}

/// The lines for a file, and its number.
pub fn explained(bytes: &[u8], asked: Asked) -> (Vec<String>, u32) {
    let number = asked.number(bytes);
    let answer = format!("answer {number}: {}", reason(number));
    let mut lines = vec![FIRST.to_string(), answer];
    match (number, walk(bytes, asked)) {
        (0, Ok(())) => (),
        (0, Err(found)) => lines.push(format!("  {UNKNOWN}: its walk gives {}", found.number)),
        (_, walk) => {
            let found = agreed(number, walk);
            lines.extend(found.place.iter().map(|words| format!("  {words}")));
        }
    }
    if let Some(call) = asked.in_room().filter(|_| number == 0) {
        lines.push(format!("  {}", room(call, bytes)));
    }
    (lines, number)
}
