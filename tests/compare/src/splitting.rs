//! `split_cells` of lists of cells: the number, every bit of the parts, and that all else is as it was.
use crate::bits::bits;
use crate::fusing::{given, with, MARK};
use crate::report::{Report, Told};
use crate::Scale;
use gen::family::Family;
use gen::lists::{self, List, Split};
use gen::Random;
use oracle::leaf;
use port::cutting::plane;
use port::fusing::{Given, NONE};
use port::splitting::{Parts, Splitter};

const EACH: usize = 20_000;

type Bits = (Vec<u64>, Vec<u64>, Vec<u64>);

fn bits_of((floats, counts, sizes): Parts) -> Bits {
    (floats.into_iter().map(bits).collect(), counts, sizes)
}

fn ours(splitter: &mut Splitter, s: &Split) -> Told<Bits> {
    let planes: Vec<_> = s.planes.iter().flat_map(|w| plane(w, MARK)).collect();
    let told = splitter.split(&planes, &given(&s.list));
    told.clean.then(|| told.answer.map(bits_of))
}

fn theirs(s: &Split) -> Told<Bits> {
    let list = &s.list;
    let cells = leaf::split_cells(&list.tolerances, Some(list.room), &list.cells, &s.planes);
    let parts = cells.map(|cells| {
        let given = given(&List {
            cells,
            ..list.clone()
        });
        bits_of((given.floats, given.counts, given.sizes))
    });
    Some(parts.map_err(u64::from))
}

pub fn compare(report: &mut Report, seed: u64, scale: Scale) {
    let mut splitter = Splitter::new();
    let mut random = Random::new(seed);
    for Family { name, make, fewer } in lists::SPLITS {
        let lists: Vec<_> = (0..scale.of(EACH / fewer))
            .map(|_| make(&mut random))
            .collect();
        report.ask_call(
            ["split_cells", name],
            lists,
            |s| ours(&mut splitter, s),
            theirs,
        );
    }
    let lists: Vec<_> = (0..100)
        .map(|_| (lists::SPLITS[0].make)(&mut random))
        .collect();
    let some = || lists.iter().filter(|s| !s.list.cells.is_empty());
    report.ask(
        "split_cells, no list of cells",
        some().flat_map(|s| wrong(&given(&s.list))),
        |g| {
            let told = splitter.split(&[], g);
            (told.answer.err(), told.clean)
        },
        |_| (Some(NONE), true),
    );
    report.ask(
        "split_cells, lent too little",
        some().map(|s| given(&s.list)),
        |g| {
            [0, 1, 2, 3]
                .map(|i| splitter.call(&[], g, std::array::from_fn(|k| usize::from(k == i))))
        },
        |_| [NONE; 4],
    );
    report.reached("split_cells", &[0, 6, 7, 9, 10, 11, 12]);
}

/// Slices that are none of this list, each for one reason.
fn wrong(list: &Given) -> Vec<Given> {
    let changed = |change| with(list, change);
    vec![
        changed(|l| l.room = port::splitting::ROOM + 1),
        changed(|l| l.cells = l.room + 2),
        changed(|l| l.sizes[0] = 0),
        changed(|l| l.sizes[0] = 129),
        changed(|l| l.counts[0] = 2),
        changed(|l| l.counts[0] = 129),
        changed(|l| l.room = l.counts.iter().sum::<u64>() as usize - 1),
    ]
}
