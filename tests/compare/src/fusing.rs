//! Merging, conforming and fusing of lists of cells: the number, every byte of the bodies, and that all else is as it was.
use crate::report::{Report, Told};
use crate::Scale;
use gen::family::Family;
use gen::lists::{self, List, ROOM};
use gen::Random;
use oracle::{bodies_bytes, leaf};
use port::cutting::face;
use port::fusing::{Fuser, Given, NONE};

const EACH: usize = 5_000;

/// The mark of every plane that is handed in. It changes no answer, and every plane of one has it too.
pub const MARK: f64 = 7.25;

pub fn given(list: &List) -> Given {
    let faces = || list.cells.iter().flatten();
    let floats = faces().flat_map(|f| face(&f.plane, MARK, &f.points));
    let count = |n: usize| n as u64;
    Given {
        tolerances: [list.tolerances.linear, list.tolerances.local],
        room: list.room,
        cells: list.cells.len(),
        floats: floats.collect(),
        counts: faces().map(|f| count(f.points.len())).collect(),
        sizes: list.cells.iter().map(|c| count(c.len())).collect(),
    }
}

fn ours(fuser: &mut Fuser, list: &List) -> Told<Vec<u8>> {
    let told = fuser.fuse(&given(list));
    told.clean.then_some(told.answer)
}

fn theirs(list: &List) -> Told<Vec<u8>> {
    let bodies = leaf::fuse_cells(&list.tolerances, Some(list.room), &list.cells);
    Some(bodies.map(|b| bodies_bytes(&b)).map_err(u64::from))
}

fn asked(
    report: &mut Report,
    fuser: &mut Fuser,
    name: &str,
    lists: impl IntoIterator<Item = List>,
) {
    report.ask_call(["fusing", name], lists, |l| ours(fuser, l), theirs);
}

pub fn compare(report: &mut Report, seed: u64, scale: Scale) {
    let mut fuser = Fuser::new();
    let mut random = Random::new(seed);
    for Family { name, make, fewer } in lists::FAMILIES {
        let lists = (0..scale.of(EACH / fewer)).map(|_| make(&mut random));
        asked(report, &mut fuser, name, lists.collect::<Vec<_>>());
    }
    asked(report, &mut fuser, "none to many points", lists::counts());
    each_number(report, &mut fuser);
    let lists: Vec<_> = (0..100).map(|_| lists::any(&mut random)).collect();
    let some = || lists.iter().filter(|l| !l.cells.is_empty()).map(given);
    report.ask(
        "fusing, no list of cells",
        some().flat_map(|l| wrong(&l)),
        |g| (fuser.fuse(g).answer, fuser.fuse(g).clean),
        |_| (Err(NONE), true),
    );
    report.ask(
        "fusing, lent too little",
        some(),
        |g| fuser.leaves_short_alone(g),
        |_| true,
    );
    report.reached(
        "fusing",
        &[0, 6, 12, 13, 14, 15, 16, 17, 18, 19, 20, 21, 22, 23],
    );
}

/// The list that stands for each number is refused with it.
fn each_number(report: &mut Report, fuser: &mut Fuser) {
    report.ask(
        "fusing, a list for each number",
        lists::refused(),
        |(_, list)| ours(fuser, list),
        |(number, _)| Some(Err(u64::from(*number))),
    );
    let each = lists::refused().into_iter().map(|(_, list)| list);
    asked(report, fuser, "a list for each number", each);
}

/// A list with one change.
pub fn with(list: &Given, change: fn(&mut Given)) -> Given {
    let mut list = list.clone();
    change(&mut list);
    list
}

/// Slices that are none of this list, each for one reason.
fn wrong(list: &Given) -> Vec<Given> {
    let changed = |change| with(list, change);
    vec![
        changed(|l| l.room = ROOM + 1),
        changed(|l| l.cells += 1),
        changed(|l| l.sizes[0] = 0),
        changed(|l| l.sizes[0] = 129),
        changed(|l| l.sizes[0] = u64::MAX),
        changed(|l| l.counts[0] = 2),
        changed(|l| l.counts[0] = 129),
        changed(|l| l.counts.truncate(l.counts.len() - 1)),
        changed(|l| l.floats.truncate(l.floats.len() - 1)),
        changed(|l| l.room = l.counts.iter().sum::<u64>() as usize - 1),
    ]
}
