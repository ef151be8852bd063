//! The rows: each call of the port beside the same in Rust. `bench` times all of them; `bench --passes N port|rust ROW` makes N passes over
//! the inputs of one row by one of the two, for a counter of instructions (`tests/instructions`), and prints how many calls that were.
use std::hint::black_box;
use std::time::Instant;

const RUNS: usize = 61;

/// So many passes over one row's inputs, by the port or by the Rust.
struct Passes {
    times: usize,
    port: bool,
    row: String,
}

fn passes() -> Option<Passes> {
    let words: Vec<_> = std::env::args().skip(1).collect();
    let usage = || -> ! {
        eprintln!("usage: bench [--passes N port|rust ROW]");
        std::process::exit(2)
    };
    match &words[..] {
        [] => None,
        [flag, times, who, row] if flag == "--passes" && ["port", "rust"].contains(&&who[..]) => {
            Some(Passes {
                times: times.parse().unwrap_or_else(|_| usage()),
                port: who == "port",
                row: row.clone(),
            })
        }
        _ => usage(),
    }
}

/// Whether this run asks for the row, so that its inputs must be made.
pub fn is_asked(name: &str) -> bool {
    passes().is_none_or(|p| p.row == name)
}

pub fn heading() {
    if passes().is_none() {
        println!(
            "{:<36} {:>10} {:>10} {:>7}  wish",
            "call", "port ns", "Rust ns", "ratio"
        );
    }
}

/// One row: a call of the port for each input, the same in Rust, and the ratio that is wished for.
pub fn row<I: Copy, A, B>(
    name: &str,
    inputs: &[I],
    mut port: impl FnMut(I) -> A,
    mut rust: impl FnMut(I) -> B,
    wish: f64,
) {
    let Some(p) = passes() else {
        let [port, rust] = both(inputs, port, rust);
        let ratio = port / rust;
        println!("{name:<36} {port:>10.1} {rust:>10.1} {ratio:>7.2}  {wish}");
        return;
    };
    if p.row != name {
        return;
    }
    for _ in 0..p.times {
        if p.port {
            pass(inputs, &mut port);
        } else {
            pass(inputs, &mut rust);
        }
    }
    println!("{}", p.times * inputs.len());
}

/// Nanoseconds for one input, of the port and of the Rust: the least of several runs, so that what else the machine does counts little.
/// They run in turn, so that both meet the same machine.
fn both<I: Copy, A, B>(
    inputs: &[I],
    mut port: impl FnMut(I) -> A,
    mut rust: impl FnMut(I) -> B,
) -> [f64; 2] {
    let mut least = [f64::INFINITY; 2];
    for _ in 0..RUNS {
        let [p, r] = [ns(inputs, &mut port), ns(inputs, &mut rust)];
        least = [least[0].min(p), least[1].min(r)];
    }
    least
}

fn ns<I: Copy, A>(inputs: &[I], f: &mut impl FnMut(I) -> A) -> f64 {
    let start = Instant::now();
    pass(inputs, f);
    start.elapsed().as_secs_f64() * 1e9 / inputs.len() as f64
}

fn pass<I: Copy, A>(inputs: &[I], f: &mut impl FnMut(I) -> A) {
    for &input in inputs {
        black_box(f(black_box(input)));
    }
}
