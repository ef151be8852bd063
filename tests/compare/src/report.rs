//! What was compared, and where port and oracle differ.
use std::collections::BTreeMap;
use std::fmt::Debug;

/// How many differences of one question are printed.
const SHOWN: usize = 5;

/// An answer or the number of a refusal; none where a call wrote what it should not.
pub type Told<A> = Option<Result<A, u64>>;

#[derive(Default)]
pub struct Report {
    lines: Vec<(String, usize, usize)>,
    numbers: BTreeMap<(String, u64), usize>,
    unreached: Vec<(String, u64)>,
}

impl Report {
    /// A question: asked for each input, the port's answer beside the oracle's.
    pub fn ask<I: Debug, A: PartialEq + Debug>(
        &mut self,
        name: &str,
        inputs: impl IntoIterator<Item = I>,
        mut port: impl FnMut(&I) -> A,
        mut oracle: impl FnMut(&I) -> A,
    ) {
        let (mut asked, mut differ) = (0, 0);
        for input in inputs {
            let (ours, theirs) = (port(&input), oracle(&input));
            asked += 1;
            if ours != theirs {
                differ += 1;
                if differ <= SHOWN {
                    println!("{name}: {input:?}\n  port   {ours:?}\n  oracle {theirs:?}");
                }
            }
        }
        println!("{name:<36} {asked:>9} asked {differ:>6} differ");
        self.lines.push((name.to_string(), asked, differ));
    }

    /// A question whose answers are the call's own or the number of a refusal; the oracle's numbers are counted.
    pub fn ask_call<I: Debug, A: PartialEq + Debug>(
        &mut self,
        [call, name]: [&str; 2],
        inputs: impl IntoIterator<Item = I>,
        port: impl FnMut(&I) -> Told<A>,
        mut oracle: impl FnMut(&I) -> Told<A>,
    ) {
        let mut numbers = Vec::new();
        self.ask(&format!("{call}, {name}"), inputs, port, |i| {
            let told = oracle(i);
            numbers.extend(told.iter().map(|r| r.as_ref().err().copied().unwrap_or(0)));
            told
        });
        for n in numbers {
            *self.numbers.entry((call.to_string(), n)).or_default() += 1;
        }
    }

    /// Tells how often each of these numbers was answered; one that never was fails the run.
    pub fn reached(&mut self, call: &str, wanted: &[u64]) {
        let times = |n: u64| self.numbers.get(&(call.to_string(), n)).copied();
        let told: Vec<_> = wanted
            .iter()
            .map(|&n| format!("{n}: {}", times(n).unwrap_or(0)))
            .collect();
        println!("{call} answered {}", told.join(", "));
        let never = wanted.iter().filter(|&&n| times(n).is_none());
        let never: Vec<_> = never.map(|&n| (call.to_string(), n)).collect();
        self.unreached.extend(never);
    }

    /// What another report tells is told too.
    pub fn join(&mut self, other: Report) {
        self.lines.extend(other.lines);
        self.unreached.extend(other.unreached);
        for (of, times) in other.numbers {
            *self.numbers.entry(of).or_default() += times;
        }
    }

    /// How many questions were asked of these calls.
    pub fn asked(&self, calls: &[&str]) -> usize {
        let of = |name: &str| name.split(", ").next().is_some_and(|n| calls.contains(&n));
        let lines = self.lines.iter().filter(|l| of(&l.0));
        lines.map(|l| l.1).sum()
    }

    /// Whether nothing differs, every question was asked and every wanted number answered.
    pub fn finish(self) -> bool {
        let asked: usize = self.lines.iter().map(|l| l.1).sum();
        let differ: usize = self.lines.iter().map(|l| l.2).sum();
        let empty: Vec<_> = self
            .lines
            .iter()
            .filter(|l| l.1 == 0)
            .map(|l| &l.0)
            .collect();
        println!(
            "compare: {} questions, {asked} asked, {differ} differ",
            self.lines.len()
        );
        if !empty.is_empty() {
            println!("compare: never asked: {empty:?}");
        }
        if !self.unreached.is_empty() {
            println!("compare: never answered: {:?}", self.unreached);
        }
        differ == 0 && empty.is_empty() && self.unreached.is_empty() && asked > 0
    }
}
