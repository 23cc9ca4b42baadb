//! A receive clock that is known only nearly (02, C-18).

use super::capture::Record;
use super::CLOCK;
use std::collections::BTreeMap;

/// The corrections of a call so far.
#[derive(Default)]
pub struct NearClock {
    /// Their sums, by channel index.
    sums: BTreeMap<u8, i64>,
    made: Vec<i64>,
}

impl NearClock {
    /// The clock to read a header at, and how far that is from the one expected: by trial of the clocks up to 31 either way.
    pub fn taken(&self, record: &Record) -> Option<(u64, i64)> {
        let expected = record.clock as i64 + self.sums.get(&record.channel).unwrap_or(&0);
        (-31..=31)
            .map(|correction| ((expected + correction).rem_euclid(CLOCK as i64) as u64, correction))
            .find(|&(clock, _)| clock & 0b11_1111 == u64::from(record.epam))
    }

    /// A header past 1, 2 and 10 was read with this correction.
    pub fn accept(&mut self, record: &Record, correction: i64) {
        *self.sums.entry(record.channel).or_default() += correction;
        self.made.push(correction);
    }

    /// The smallest and the largest correction, both 0 where there is none.
    pub fn extremes(&self) -> (i8, i8) {
        let small = |correction: Option<&i64>| correction.map_or(0, |&correction| correction as i8);
        (small(self.made.iter().min()), small(self.made.iter().max()))
    }
}
