//! The check of a cell's bytes: the number of the reader and of the solid check, of a solid that is given and of one that was built.
use crate::report::{Report, Told};
use crate::Scale;
use gen::{damage, dents, jobs, leaves, solid, Random};
use oracle::{leaf, read_cell, CellFile, Solid, Tolerances};
use port::solids::Desk;

const CALL: &str = "check of a cell";

/// Damaged solids of any family.
const MANY: usize = 100_000;

type Question = (Vec<u8>, bool);

fn theirs((bytes, given): &Question) -> Told<()> {
    let checked = read_cell(bytes).and_then(|c| leaf::check(&c.tolerances, &c.solid, *given));
    Some(checked.map(|_| ()).map_err(u64::from))
}

fn ours(desk: &mut Desk, (bytes, given): &Question) -> Told<()> {
    Some(match desk.check_cell(bytes, *given) {
        0 => Ok(()),
        number => Err(number),
    })
}

fn file(tolerances: Tolerances, solid: Solid) -> Vec<u8> {
    CellFile { tolerances, solid }.bytes()
}

fn both(bytes: Vec<u8>) -> [Question; 2] {
    [(bytes.clone(), true), (bytes, false)]
}

fn usual(solid: Solid) -> Vec<u8> {
    file(Tolerances::USUAL, solid)
}

/// Every byte of a cell put to every other value.
fn other_bytes(bytes: &[u8]) -> Vec<Vec<u8>> {
    let at = |i: usize| {
        (1..=255u8).map(move |x| {
            let mut b = bytes.to_vec();
            b[i] ^= x;
            b
        })
    };
    (0..bytes.len()).flat_map(at).collect()
}

pub fn compare(report: &mut Report, seed: u64, scale: Scale) {
    let mut random = Random::new(seed);
    let mut desk = Desk::default();
    let mut ask = |name: &str, questions: Vec<Vec<u8>>| {
        let questions = questions.into_iter().flat_map(both);
        report.ask_call([CALL, name], questions, |q| ours(&mut desk, q), theirs);
    };
    let whole: Vec<_> = (0..scale.of(10))
        .map(|_| usual(jobs::solid(&mut random, 20)))
        .collect();
    let short = whole.iter().flat_map(|b| damage::cut_short(b));
    ask("cut short", short.map(<[u8]>::to_vec).collect());
    let long = whole.iter().flat_map(|b| damage::too_long(b));
    ask("too long", long.collect());
    ask("byte changed", other_bytes(&usual(solid::tetrahedron(1.0))));
    ask("counts", damage::counts().into_iter().map(usual).collect());
    let close = (0..scale.of(MANY / 20)).map(|_| leaves::close_solid(&mut random));
    ask("close", close.map(|(t, s)| file(t, s)).collect());
    let damaged = (0..scale.of(MANY)).map(|_| {
        let t = jobs::tolerances(&mut random);
        let solid = jobs::solid(&mut random, 20);
        let damaged = damage::any_solid(&mut random, &solid, &t);
        file(t, damaged)
    });
    ask("damaged", damaged.collect());
    let sound = (0..scale.of(MANY / 10)).map(|_| {
        let t = jobs::tolerances(&mut random);
        file(t, jobs::solid(&mut random, 64))
    });
    ask("sound", sound.collect());
    let known = dents::known().into_iter().map(|(_, s, _)| usual(s));
    ask("known dents", known.collect());
    let dented = (0..scale.of(MANY / 2)).map(|_| {
        let t = jobs::tolerances(&mut random);
        file(t, dents::any(&mut random, &t))
    });
    ask("dents", dented.collect());
    report.reached(CALL, &[0, 1, 2, 3, 4, 5, 6, 7, 33]);
}
