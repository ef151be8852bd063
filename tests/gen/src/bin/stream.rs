//! stream SEED JOBS DIRECTORY: writes a stream of jobs, each behind its length, many of them damaged, and what the oracle answers: `jobs`, `answers`
//! (each behind its length, one byte of number and the answer's bytes) and `checks` (a line for each job with the numbers of its solids' checks).
use gen::{damage, jobs, limits, pairs, Random};
use oracle::{leaf, Job, Lent, Tolerances};
use std::{env, fs, io, path::Path};

/// The room that a growing one ends with.
const MOST: usize = 1 << 18;

/// The number of the check of each solid; 1 for bytes that are no job.
fn checks(bytes: &[u8]) -> String {
    let Ok(job) = oracle::read_job(bytes) else {
        return String::from("1");
    };
    let solids = [&job.first, &job.second];
    let number = |t: &Tolerances, s| leaf::check(t, s, true).err().unwrap_or(0);
    let numbers = solids.map(|s| match fair(&job.tolerances) {
        true => number(&job.tolerances, s),
        false => 2,
    });
    numbers.map(|n| n.to_string()).join(" ")
}

/// 2^-40 <= linear <= local <= 2^-4.
fn fair(t: &Tolerances) -> bool {
    2f64.powi(-40) <= t.linear && t.linear <= t.local && t.local <= 2f64.powi(-4)
}

fn put(stream: &mut Vec<u8>, bytes: &[u8]) {
    let length = u32::try_from(bytes.len()).expect("a job or an answer is shorter");
    stream.extend(length.to_le_bytes());
    stream.extend(bytes);
}

/// A number, then the answer's bytes.
fn record(bytes: &[u8]) -> Vec<u8> {
    match oracle::fuse(bytes, Lent::even(MOST)) {
        Ok(answer) => [&[0], answer.as_slice()].concat(),
        Err(number) => vec![u8::try_from(number).expect("a number of document 01")],
    }
}

/// The pairs, the limits, the rare numbers that take no time, then jobs of any quick family, every other one damaged.
fn list(seed: u64, count: usize) -> Vec<Vec<u8>> {
    let quick = |number: u32| number != 11 && number != 14;
    let mut known: Vec<Job> = pairs::files().into_iter().map(|(_, job)| job).collect();
    known.extend(limits::all());
    known.extend(
        jobs::rare()
            .into_iter()
            .filter(|(_, n)| quick(*n))
            .map(|(job, _)| job),
    );
    let mut out: Vec<_> = known.iter().map(Job::bytes).collect();
    let families: Vec<_> = jobs::FAMILIES.iter().filter(|f| f.fewer < 10).collect();
    let mut random = Random::new(seed);
    for i in out.len()..count {
        let job = (families[i % families.len()].make)(&mut random);
        out.push(match i % 2 {
            0 => job.bytes(),
            _ => damage::any(&mut random, &job),
        });
    }
    out.truncate(count);
    out
}

fn main() -> io::Result<()> {
    let words: Vec<_> = env::args().collect();
    let [_, seed, count, directory] = words.as_slice() else {
        eprintln!("usage: stream SEED JOBS DIRECTORY");
        std::process::exit(2);
    };
    let number = |word: &str| word.parse().expect("a seed and a count are whole numbers");
    let (mut given, mut answers, mut lines) = (Vec::new(), Vec::new(), String::new());
    for job in list(number(seed), number(count) as usize) {
        put(&mut given, &job);
        put(&mut answers, &record(&job));
        lines.push_str(&checks(&job));
        lines.push('\n');
    }
    let directory = Path::new(directory);
    fs::write(directory.join("jobs"), given)?;
    fs::write(directory.join("answers"), answers)?;
    fs::write(directory.join("checks"), lines)
}
