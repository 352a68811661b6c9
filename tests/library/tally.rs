//! What was checked, how it went, and which answers were met.

use std::collections::BTreeMap;

#[derive(Default)]
pub struct Tally {
    pub passed: u64,
    pub failed: u64,
    /// Which trial runs now: printed with a failure, so that it can be repeated.
    pub trial: String,
    /// How often each call gave each code.
    met: BTreeMap<(&'static str, u8), u64>,
    /// How often something was tried that no answer shows.
    counts: BTreeMap<&'static str, u64>,
}

/// Failures beyond these are counted only.
const SHOWN: u64 = 20;

impl Tally {
    pub fn check(&mut self, good: bool, what: impl FnOnce() -> String) {
        if good {
            self.passed += 1;
            return;
        }
        self.failed += 1;
        if self.failed <= SHOWN {
            println!("failed, {}: {}", self.trial, what());
        }
    }

    pub fn equal<T: PartialEq + std::fmt::Debug>(&mut self, what: &str, got: T, wanted: T) {
        let good = got == wanted;
        self.check(good, || format!("{what} gave {got:?}, wanted {wanted:?}"));
    }

    /// A call's answer and the code in it.
    pub fn answer<T: PartialEq + std::fmt::Debug>(
        &mut self,
        call: &'static str,
        code: u8,
        got: T,
        wanted: T,
    ) {
        *self.met.entry((call, code)).or_default() += 1;
        self.equal(call, got, wanted);
    }

    pub fn count(&mut self, what: &'static str) {
        *self.counts.entry(what).or_default() += 1;
    }

    /// Each of these was tried.
    pub fn check_counted(&mut self, tried: &[&'static str]) {
        for what in tried {
            let times = self.counts.get(what).copied().unwrap_or(0);
            self.check(times > 0, || format!("no {what}"));
        }
    }

    pub fn print_counts(&self) {
        self.counts.iter().for_each(|(what, times)| println!("{what}: {times}"));
    }

    /// Each call gave each code that the header names with it, and no other: trials that never meet an
    /// answer would pass whatever it is.
    pub fn check_met(&mut self, named: &[(&'static str, &[u8])]) {
        for (call, codes) in named {
            let met: Vec<(u8, u64)> = self
                .met
                .iter()
                .filter(|((by, _), _)| by == call)
                .map(|((_, code), times)| (*code, *times))
                .collect();
            let shown: Vec<String> =
                met.iter().map(|(code, times)| format!("{code} {times} times")).collect();
            println!("{call}: {}", shown.join(", "));
            self.equal("codes met", met.into_iter().map(|(code, _)| code).collect(), codes.to_vec());
        }
    }

    pub fn join(&mut self, other: Tally) {
        self.passed += other.passed;
        self.failed += other.failed;
        for (answer, times) in other.met {
            *self.met.entry(answer).or_default() += times;
        }
        for (what, times) in other.counts {
            *self.counts.entry(what).or_default() += times;
        }
    }
}
