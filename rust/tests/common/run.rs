//! One part of the differential tests: its random numbers, how many calls it made, and what came up in them.

use super::random::Random;
use std::env;
use std::fmt::Debug;
use std::thread;

/// Calls of each part in the quick run.
pub const QUICK: u64 = 2_000_000;

/// A refusal that comes up more rarely than this was not really tried.
pub const ENOUGH: u64 = 20;

pub fn seed() -> u64 {
    setting("ARIN_SEED").unwrap_or(1)
}

fn setting(name: &str) -> Option<u64> {
    let text = env::var(name).ok()?;
    Some(
        text.parse()
            .unwrap_or_else(|_| panic!("{name} is no number: {text}")),
    )
}

pub struct Run {
    part: &'static str,
    seed: u64,
    wanted: u64,
    calls: u64,
    numbers: [u64; 256],
    cases: Vec<(&'static str, u64)>,
    pub random: Random,
}

impl Run {
    pub fn new(part: &'static str) -> Run {
        let seed = seed();
        Run {
            part,
            seed,
            wanted: setting("ARIN_CALLS").unwrap_or(QUICK),
            calls: 0,
            numbers: [0; 256],
            cases: Vec::new(),
            random: Random::new(seed, part),
        }
    }

    pub fn going(&self) -> bool {
        self.calls < self.wanted
    }

    pub fn same<T: PartialEq + Debug>(
        &mut self,
        call: &str,
        input: &dyn Debug,
        library: T,
        model: T,
    ) {
        self.calls += 1;
        if library != model {
            panic!("{call} differs from the model\n  input: {input:x?}\nlibrary: {library:x?}\n  model: {model:x?}");
        }
    }

    pub fn saw(&mut self, number: u8) {
        self.numbers[usize::from(number)] += 1;
    }

    /// A case that no refusal number stands for.
    pub fn reached(&mut self, case: &'static str) {
        match self.cases.iter_mut().find(|c| c.0 == case) {
            Some(known) => known.1 += 1,
            None => self.cases.push((case, 1)),
        }
    }

    /// These numbers and cases have come up often enough, and no other number at all.
    pub fn finish(self, numbers: &[u8], cases: &[&str]) {
        let all = || (0..=255u8).map(|n| (n, self.numbers[usize::from(n)]));
        let seen: Vec<String> = all()
            .filter(|s| s.1 > 0)
            .map(|(n, s)| format!("{n}: {s}"))
            .collect();
        println!("{}, seed {}: {} calls", self.part, self.seed, self.calls);
        println!("  numbers {}", seen.join(", "));
        println!("  cases {:?}", self.cases);
        for (number, times) in all() {
            if !numbers.contains(&number) {
                assert_eq!(
                    times, 0,
                    "{}: {number} came up and is not listed",
                    self.part
                );
            } else if self.wanted >= QUICK {
                assert!(
                    times >= ENOUGH,
                    "{}: {number} came up {times} times only",
                    self.part
                );
            }
        }
        for case in cases {
            let times = self.cases.iter().find(|c| c.0 == *case).map_or(0, |c| c.1);
            if self.wanted >= QUICK {
                assert!(
                    times >= ENOUGH,
                    "{}: '{case}' came up {times} times only",
                    self.part
                );
            }
        }
    }
}

/// The seed is told whatever went wrong: a call that panics never gets to be compared.
impl Drop for Run {
    fn drop(&mut self) {
        if thread::panicking() {
            eprintln!(
                "part '{}', after {} calls, ARIN_SEED={}",
                self.part, self.calls, self.seed
            );
        }
    }
}
