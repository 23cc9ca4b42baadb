//! What the calls of a test answered, so that an engine that stops early, or cases that do, are noticed.

use std::collections::BTreeMap;

/// How often each call gave each number, and how often what was of note came about.
#[derive(Default)]
pub struct Tally {
    pub numbers: BTreeMap<(&'static str, u8), u64>,
    pub events: BTreeMap<&'static str, u64>,
}

impl Tally {
    pub fn note(&mut self, call: &'static str, number: u8) {
        *self.numbers.entry((call, number)).or_default() += 1;
    }

    pub fn event(&mut self, event: &'static str) {
        *self.events.entry(event).or_default() += 1;
    }

    /// How often a number was given, by any call.
    pub fn refusals(&self, number: u8) -> u64 {
        self.numbers.iter().filter(|((_, given), _)| *given == number).map(|(_, times)| times).sum()
    }

    /// Fails where a call gave a number less often than this.
    #[track_caller]
    pub fn gave(&self, call: &'static str, number: u8, least: u64) {
        let times = self.numbers.get(&(call, number)).copied().unwrap_or(0);
        assert!(times >= least, "{call} gave {number} {times} times, wanted {least}");
    }

    /// Fails where an event came about less often than this.
    #[track_caller]
    pub fn reached(&self, event: &'static str, least: u64) {
        let times = self.events.get(event).copied().unwrap_or(0);
        assert!(times >= least, "{event}: {times} times, wanted {least}");
    }
}
