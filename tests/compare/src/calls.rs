//! The library's calls: the number, every byte of the answer, that all else of it is as it was, and that work memory is zero.
use crate::report::{Report, Told};
use crate::Scale;
use gen::calls::{self, hex, Question, MOST_CORNERS, MOST_MEMORY};
use gen::family::Family;
use gen::{cells, damage, dents, facets, jobs, limits, pairs, Random};
use oracle::{Call, CellFile, Job, Solid, Tolerances, CORNER_BYTES, SOLIDJOB_ROOM};
use port::calls::{Asked, Desk, Entry, Lending, CELLS, FUSE, HOLLOW, MESH, OFFSET};
use std::{fmt, thread};

/// Questions of one family; fewer where they are fused, which takes long.
const EACH: usize = 8_000;
const EACH_FUSED: usize = 1_000;

/// Threads that call at the same time.
const THREADS: usize = 4;

/// A question and how its work memory is lent.
type Lent = (Question, Lending);

/// An answer's bytes; printed by their number and the first of them.
#[derive(Clone, PartialEq)]
struct Answer(Vec<u8>);

impl fmt::Debug for Answer {
    fn fmt(&self, f: &mut fmt::Formatter) -> fmt::Result {
        let first = &self.0[..self.0.len().min(32)];
        write!(f, "{} bytes {}", self.0.len(), hex(first))
    }
}

fn asked(q: &Question, lending: Lending) -> Asked<'_> {
    Asked {
        given: &q.given,
        by: match q.call {
            Call::Offset(by) | Call::Hollow(by) => by,
            Call::Fuse | Call::Cells | Call::Mesh => 0.0,
        },
        corners: q.corners,
        lent: q.corners,
        memory: q.memory,
        lending,
    }
}

fn ours(desk: &mut Desk, asked: &Asked) -> Told<Answer> {
    desk.ask(asked).map(|told| told.map(Answer))
}

fn ours_of(desk: &mut Desk, (q, lending): &Lent) -> Told<Answer> {
    ours(desk, &asked(q, *lending))
}

/// The oracle's answer in a room of so many corners.
fn answered(q: &Question, corners: usize, memory: usize) -> Told<Answer> {
    let told = q.call.answer(&q.given, corners, memory);
    Some(told.map(Answer).map_err(u64::from))
}

fn theirs((q, _): &Lent) -> Told<Answer> {
    answered(q, q.corners, q.memory)
}

/// What a room gives that is not lent: 12, where the bytes can be read, as for a room without answer memory.
fn refused(q: &Question) -> Told<Answer> {
    answered(q, 1, 0)
}

/// The lines that `solidjob` prints of an answer.
fn lines(told: Told<Answer>) -> Option<String> {
    let bodies = match told? {
        Ok(Answer(bytes)) => Ok(oracle::read_bodies(&bytes)?),
        Err(number) => Err(u32::try_from(number).ok()?),
    };
    Some(oracle::text(&bodies))
}

/// A question in a room of so many corners.
fn in_room((call, given): (Call, Vec<u8>), corners: usize) -> Question {
    Question {
        memory: CORNER_BYTES * corners,
        call,
        given,
        corners,
    }
}

/// One call's questions to its desk.
struct Layer<'a> {
    report: &'a mut Report,
    name: &'static str,
    entry: Entry,
    desk: Desk,
    random: Random,
    scale: Scale,
}

impl<'a> Layer<'a> {
    fn new(
        report: &'a mut Report,
        name: &'static str,
        entry: Entry,
        seed: u64,
        scale: Scale,
    ) -> Self {
        Layer {
            report,
            name,
            entry,
            desk: Desk::new(entry, MOST_CORNERS, MOST_MEMORY),
            random: Random::new(seed),
            scale,
        }
    }

    /// So many questions, made one by one, each with some room, some answer memory and any bits in its work memory.
    fn ask(
        &mut self,
        name: &str,
        times: usize,
        mut make: impl FnMut(&mut Random) -> (Call, Vec<u8>),
    ) {
        let Layer { random, desk, .. } = self;
        let questions = (0..self.scale.of(times)).map(|_| {
            let (call, given) = make(random);
            let lending = match random.below(4) {
                0 => Lending::Soiled(random.bits()),
                1 => Lending::Longer(random.bits()),
                _ => Lending::Exact,
            };
            (calls::lent(random, call, given), lending)
        });
        let port = |q: &Lent| ours_of(desk, q);
        self.report
            .ask_call([self.name, name], questions, port, theirs);
    }

    /// Each of these in the least room that suffices.
    fn ask_all(&mut self, name: &str, given: impl IntoIterator<Item = (Call, Vec<u8>)>) {
        self.ask_less(name, 0, given);
    }

    /// Each of these in a room of so many corners less than would suffice.
    fn ask_less(
        &mut self,
        name: &str,
        less: usize,
        given: impl IntoIterator<Item = (Call, Vec<u8>)>,
    ) {
        let desk = &mut self.desk;
        let questions = given.into_iter().map(|(call, given)| {
            let least = call.least_room(&given).min(MOST_CORNERS);
            let corners = least.saturating_sub(less);
            (in_room((call, given), corners), Lending::Exact)
        });
        let port = |q: &Lent| ours_of(desk, q);
        self.report
            .ask_call([self.name, name], questions, port, theirs);
    }

    /// Each of these in a room of so many corners.
    fn ask_in(
        &mut self,
        name: &str,
        corners: usize,
        given: impl IntoIterator<Item = (Call, Vec<u8>)>,
    ) {
        let desk = &mut self.desk;
        let question = |given| (in_room(given, corners), Lending::Exact);
        let questions = given.into_iter().map(question);
        let port = |q: &Lent| ours_of(desk, q);
        self.report
            .ask_call([self.name, name], questions, port, theirs);
    }

    /// The lines of the program `solidjob` for 01's pairs.
    fn ask_lines(&mut self) {
        let desk = &mut self.desk;
        let questions = pairs::files().into_iter().map(|(_, job)| job.bytes());
        let port = |job: &Vec<u8>| {
            let q = in_room((Call::Fuse, job.clone()), SOLIDJOB_ROOM);
            lines(ours(desk, &asked(&q, Lending::Exact)))
        };
        let name = format!("{}, the lines of solidjob", self.name);
        let printed = |job: &Vec<u8>| Some(oracle::solidjob(job));
        self.report.ask(&name, questions, port, printed);
    }

    /// So many facets, each with its corners.
    fn ask_mesh(
        &mut self,
        name: &str,
        times: usize,
        mut make: impl FnMut(&mut Random) -> (Vec<u8>, usize),
    ) {
        let Layer { random, desk, .. } = self;
        let questions = (0..self.scale.of(times)).map(|_| {
            let (given, corners) = make(random);
            (calls::meshed(random, given, corners), Lending::Exact)
        });
        let port = |q: &Lent| ours_of(desk, q);
        self.report
            .ask_call([self.name, name], questions, port, theirs);
    }

    /// Each work slice too short by a word; and rooms beyond what is lent, the answer memory being enough or not.
    fn ask_short(&mut self, make: impl Fn(&mut Random) -> (Call, Vec<u8>)) {
        let Layer {
            random,
            desk,
            entry,
            ..
        } = self;
        let slices = entry.slices.len();
        let questions: Vec<_> = (0..self.scale.of(100) * slices)
            .map(|i| {
                let given = make(random);
                let k = i % slices;
                let corners: usize = random.pick(&[0, 1, 24, 100, 720]);
                // a slice of no words cannot be shorter
                let least = usize::from(entry.slices[k].words(corners) == 0);
                (in_room(given, corners.max(least)), Lending::Short(k))
            })
            .collect();
        let short = |q: &Lent| ours_of(desk, q);
        let name = [self.name, "a slice too short"];
        self.report
            .ask_call(name, questions.clone(), short, |(q, _)| refused(q));
        let name = format!("{}, a room that is not lent", self.name);
        let told = questions.iter().flat_map(|(q, _)| {
            let more = [1, 64, 1 << 32, usize::MAX / 8, usize::MAX];
            more.map(|more| (q.clone(), q.corners.saturating_add(more)))
        });
        let memory = |corners: usize| CORNER_BYTES * corners.min(MOST_CORNERS);
        let beyond = |(q, corners): &(Question, usize)| {
            let asked = Asked {
                corners: *corners,
                memory: memory(*corners),
                ..asked(q, Lending::Exact)
            };
            ours(desk, &asked)
        };
        // a call whose slices do not grow with the room has all that it asks for
        let grows = entry.slices.iter().any(|s| s.each > 0);
        let wanted = |(q, corners): &(Question, usize)| match grows {
            true => refused(q),
            false => answered(q, *corners, memory(*corners)),
        };
        self.report.ask(&name, told, beyond, wanted);
    }

    /// The same questions in several threads at once, each with memory of its own.
    fn ask_together(&mut self, times: usize, make: impl Fn(&mut Random) -> (Call, Vec<u8>)) {
        let (random, entry) = (&mut self.random, self.entry);
        let questions: Vec<Lent> = (0..self.scale.of(times))
            .map(|_| {
                let (call, given) = make(random);
                let lending = Lending::Soiled(random.bits());
                (calls::lent(random, call, given), lending)
            })
            .collect();
        let work = || {
            let mut desk = Desk::new(entry, MOST_CORNERS, MOST_MEMORY);
            let answers = questions.iter().map(|q| ours_of(&mut desk, q));
            answers.collect::<Vec<_>>()
        };
        let answers: Vec<_> = thread::scope(|scope| {
            let threads: Vec<_> = (0..THREADS).map(|_| scope.spawn(work)).collect();
            let joined = threads.into_iter().map(|t| t.join());
            joined.map(|a| a.expect("a thread ends")).collect()
        });
        self.report.ask(
            &format!("{}, {THREADS} threads at once", self.name),
            questions.iter().enumerate(),
            |(i, _)| answers.iter().map(|a| a[*i].clone()).collect(),
            |(_, q)| vec![theirs(q); THREADS],
        );
    }
}

/// A cell's bytes at the usual tolerances.
fn cell_file(solid: Solid) -> Vec<u8> {
    let tolerances = Tolerances::USUAL;
    CellFile { tolerances, solid }.bytes()
}

/// A file cut short at every length, and one byte too long.
fn other_lengths(bytes: &[u8]) -> Vec<Vec<u8>> {
    let short = damage::cut_short(bytes).map(<[u8]>::to_vec);
    short.chain(damage::too_long(bytes)).collect()
}

/// Each solid in the place of the first and of the second.
fn in_place(job: &Job, solids: Vec<Solid>) -> Vec<Vec<u8>> {
    let both = |solid: Solid| {
        let (mut first, mut second) = (job.clone(), job.clone());
        first.first = solid.clone();
        second.second = solid;
        [first.bytes(), second.bytes()]
    };
    solids.into_iter().flat_map(both).collect()
}

/// Jobs of all families through a call of jobs, so many of a family.
fn of_jobs(layer: &mut Layer, call: Call, each: usize) {
    let any = |r: &mut Random| (jobs::FAMILIES[r.below(jobs::FAMILIES.len())].make)(r);
    for Family { name, make, fewer } in jobs::FAMILIES {
        layer.ask(name, each / fewer, |r| (call, make(r).bytes()));
    }
    layer.ask("damaged", 4 * each, |r| {
        let job = any(r);
        (call, damage::any(r, &job))
    });
    let of = |given: Vec<Vec<u8>>| given.into_iter().map(move |g| (call, g));
    let pairs: Vec<_> = pairs::files().into_iter().map(|(_, job)| job).collect();
    let bytes: Vec<_> = pairs.iter().map(Job::bytes).collect();
    let lengths = bytes.iter().flat_map(|b| other_lengths(b)).collect();
    layer.ask_all("other lengths", of(lengths));
    let limits = limits::all().iter().map(Job::bytes).collect();
    layer.ask_all("the README's limits", of(limits));
    layer.ask_less("01's pairs, a corner less", 1, of(bytes.clone()));
    layer.ask_all("01's pairs", of(bytes));
    let great = [32_767, 32_768, 32_769, 33_000];
    let great = great.map(|n| damage::sized(&pairs[0], n));
    layer.ask_all("about 32,768 bytes", of(great.into()));
    let tolerances = damage::other_tolerances().into_iter().map(|tolerances| {
        let job = pairs[0].clone();
        Job { tolerances, ..job }.bytes()
    });
    layer.ask_all("other tolerances", of(tolerances.collect()));
    layer.ask_all("counts", of(in_place(&pairs[0], damage::counts())));
    let known = dents::known().into_iter().map(|(_, solid, _)| solid);
    layer.ask_all("known dents", of(in_place(&pairs[0], known.collect())));
    layer.ask_short(|r| (call, any(r).bytes()));
    layer.ask_together(each / 16, |r| (call, any(r).bytes()));
}

/// Cells of all families through a call of a cell and a distance or a thickness.
fn of_cells(layer: &mut Layer, call: fn(f64) -> Call) {
    let fit = |r: &mut Random, moved| match call(0.0) {
        Call::Hollow(_) => cells::wall(r, moved),
        _ => moved,
    };
    let any = |r: &mut Random| {
        let moved = (cells::FAMILIES[r.below(cells::FAMILIES.len())].make)(r);
        fit(r, moved)
    };
    for Family { name, make, fewer } in cells::FAMILIES {
        layer.ask(name, EACH / fewer, |r| {
            let moved = make(r);
            let moved = fit(r, moved);
            (call(moved.by), moved.cell.bytes())
        });
    }
    let mut waiting = Vec::new();
    layer.ask("where the number changes", EACH / 2, |r| {
        if waiting.is_empty() {
            waiting.extend(cells::edge(r, call));
        }
        let moved = waiting.pop().expect("two at a time");
        (call(moved.by), moved.cell.bytes())
    });
    layer.ask("damaged", 4 * EACH, |r| {
        let moved = any(r);
        (call(moved.by), damage::any_cell(r, &moved.cell))
    });
    let usual = |given: Vec<Vec<u8>>| given.into_iter().map(move |g| (call(0.25), g));
    let cube = cell_file(gen::solid::cube(0.0, 2.0));
    layer.ask_all("other lengths", usual(other_lengths(&cube)));
    let by = [-0.5, -1.0, -2.0, 0.5, Tolerances::USUAL.linear, f64::NAN];
    layer.ask_all("01's box", by.map(|by| (call(by), cube.clone())));
    let counts = damage::counts().into_iter().map(cell_file).collect();
    layer.ask_all("counts", usual(counts));
    let known = dents::known()
        .into_iter()
        .map(|(_, solid, _)| cell_file(solid));
    layer.ask_all("known dents", usual(known.collect()));
    let tolerances = damage::other_tolerances().into_iter().map(|tolerances| {
        let solid = gen::solid::cube(0.0, 2.0);
        CellFile { tolerances, solid }.bytes()
    });
    layer.ask_all("other tolerances", usual(tolerances.collect()));
    layer.ask_short(|r| {
        let moved = any(r);
        (call(moved.by), moved.cell.bytes())
    });
    layer.ask_together(EACH / 16, |r| {
        let moved = any(r);
        (call(moved.by), moved.cell.bytes())
    });
}

pub fn fuse(report: &mut Report, seed: u64, scale: Scale) {
    let mut layer = Layer::new(report, "fuse", FUSE, seed, scale);
    of_jobs(&mut layer, Call::Fuse, EACH_FUSED);
    layer.ask("many cells", EACH_FUSED / 50, |r| {
        let faces = r.between(40, 64);
        (Call::Fuse, jobs::large(r, faces).bytes())
    });
    let rare = jobs::rare().map(|(job, _)| (Call::Fuse, job.bytes()));
    layer.ask_all("what few jobs give", rare);
    layer.ask_lines();
    let numbers: Vec<u64> = (0..=23).filter(|&n| n != 8).chain([33]).collect();
    report.reached("fuse", &numbers);
}

pub fn cells(report: &mut Report, seed: u64, scale: Scale) {
    let mut layer = Layer::new(report, "cells", CELLS, seed, scale);
    of_jobs(&mut layer, Call::Cells, EACH);
    report.reached("cells", &[0, 1, 2, 3, 4, 5, 6, 7, 9, 10, 12, 33]);
}

pub fn offset(report: &mut Report, seed: u64, scale: Scale) {
    let mut layer = Layer::new(report, "offset", OFFSET, seed, scale);
    of_cells(&mut layer, Call::Offset);
    let numbers = [0, 1, 2, 3, 4, 5, 6, 7, 12, 24, 25, 26, 27, 33];
    report.reached("offset", &numbers);
}

pub fn hollow(report: &mut Report, seed: u64, scale: Scale) {
    let mut layer = Layer::new(report, "hollow", HOLLOW, seed, scale);
    of_cells(&mut layer, Call::Hollow);
    let numbers = [0, 1, 2, 3, 4, 5, 6, 7, 12, 24, 25, 26, 27, 28, 29, 33];
    report.reached("hollow", &numbers);
}

/// Facets of all families; the answer room is compared with a facet's corners.
pub fn mesh(report: &mut Report, seed: u64, scale: Scale) {
    let mut layer = Layer::new(report, "mesh-call", MESH, seed, scale);
    for facets::Family { name, make } in facets::FAMILIES {
        layer.ask_mesh(name, EACH / 4, |r| {
            let facet = make(r);
            (facet.bytes(), facet.facet.points.len())
        });
    }
    layer.ask_mesh("damaged", EACH, |r| {
        let facet = facets::any(r);
        let bytes = damage::any_facet(r, &facet);
        (bytes, facet.facet.points.len())
    });
    let counts = facets::counts()
        .into_iter()
        .map(|f| (Call::Mesh, f.bytes()));
    layer.ask_in("0 to 130 corners", 130, counts);
    let lengths = other_lengths(&facets::counts()[4].bytes());
    let lengths = lengths.into_iter().map(|g| (Call::Mesh, g));
    layer.ask_in("other lengths", 4, lengths);
    report.reached("mesh-call", &[0, 1, 2, 3, 12, 30, 31, 32, 33, 34]);
}
