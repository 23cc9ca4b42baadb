//! Drawn cases: a small generator (splitmix64), and the seeds that the tests run with.

use std::ops::Range;

/// splitmix64.
#[derive(Clone)]
pub struct Random(u64);

impl Random {
    pub fn new(seed: u64) -> Random {
        Random(seed)
    }

    pub fn next(&mut self) -> u64 {
        self.0 = self.0.wrapping_add(0x9e37_79b9_7f4a_7c15);
        let mut z = self.0;
        z = (z ^ (z >> 30)).wrapping_mul(0xbf58_476d_1ce4_e5b9);
        z = (z ^ (z >> 27)).wrapping_mul(0x94d0_49bb_1331_11eb);
        z ^ (z >> 31)
    }

    /// A number below `n`.
    pub fn below(&mut self, n: u64) -> u64 {
        self.next() % n
    }

    /// A number from `least` to `most`.
    pub fn within(&mut self, least: u64, most: u64) -> u64 {
        least + self.below(most - least + 1)
    }

    /// True once in `n`.
    pub fn once_in(&mut self, n: u64) -> bool {
        self.below(n) == 0
    }

    pub fn pick<T: Copy>(&mut self, from: &[T]) -> T {
        from[self.below(from.len() as u64) as usize]
    }

    pub fn fill(&mut self, octets: &mut [u8]) {
        octets.iter_mut().for_each(|octet| *octet = self.next() as u8);
    }

    pub fn octets(&mut self, n: usize) -> Vec<u8> {
        let mut octets = vec![0; n];
        self.fill(&mut octets);
        octets
    }

    pub fn key(&mut self) -> [u8; 16] {
        let mut key = [0; 16];
        self.fill(&mut key);
        key
    }

    pub fn mac(&mut self) -> u64 {
        self.below(1 << 48)
    }

    /// A clock; half of them within 5,000 ticks of a turn of 2^32 or 2^48.
    pub fn clock(&mut self) -> u64 {
        let near = self.below(5000);
        match self.below(6) {
            0 => (1 << 48) - 1 - near,
            1 => near,
            2 => (self.below(1 << 16) << 32 | 0xFFFF_FFFF) - near,
            _ => self.below(1 << 48),
        }
    }

    /// A payload of `eqs` EQs; control octets are of all kinds, from all data to all control characters.
    pub fn payload(&mut self, eqs: usize) -> Vec<u8> {
        let mut payload = self.octets(9 * eqs);
        let kind = self.below(4);
        for eq in payload.chunks_mut(9) {
            match kind {
                0 => eq[0] = 0,
                1 => eq[0] = if self.next() & 1 == 0 { 0 } else { 1 << (self.next() % 8) },
                2 => eq[0] = if self.next() & 1 == 0 { 0 } else { 0xFF },
                _ => (),
            }
        }
        payload
    }

    /// An output to be lent.
    pub fn lent(&mut self, length: usize) -> Lent {
        let margin = self.within(16, 31) as usize;
        let octets = self.octets(length + 2 * margin);
        Lent { part: margin..margin + length, before: octets.clone(), octets }
    }

    /// A payload that is lent to be changed in its place.
    pub fn lent_payload(&mut self, payload: &[u8]) -> Lent {
        let mut lent = self.lent(payload.len());
        lent.part().copy_from_slice(payload);
        lent.before.clone_from(&lent.octets);
        lent
    }
}

/// An output of random octets, lent out of the middle of a larger buffer, at any alignment.
pub struct Lent {
    part: Range<usize>,
    before: Vec<u8>,
    octets: Vec<u8>,
}

impl Lent {
    pub fn part(&mut self) -> &mut [u8] {
        &mut self.octets[self.part.clone()]
    }

    /// The lent part holds what is expected, or with nothing expected what it held; octets around it stay.
    #[track_caller]
    pub fn check(&self, expected: Option<&[u8]>) {
        let Range { start, end } = self.part;
        let expected = expected.unwrap_or(&self.before[start..end]);
        assert!(self.octets[start..end] == *expected, "output differs");
        assert_eq!(self.octets[..start], self.before[..start], "octets ahead of the output");
        assert_eq!(self.octets[end..], self.before[end..], "octets behind the output");
    }
}

/// A number of the environment, decimal or hex with 0x.
fn variable(name: &str) -> Option<u64> {
    let text = std::env::var(name).ok()?;
    let number = match text.strip_prefix("0x") {
        Some(hex) => u64::from_str_radix(hex, 16),
        None => text.parse(),
    };
    Some(number.unwrap_or_else(|_| panic!("{name}={text} is no number")))
}

/// Says the seed of the case that is running when it fails.
struct Announced(u64);

impl Drop for Announced {
    fn drop(&mut self) {
        if std::thread::panicking() {
            let test = std::thread::current().name().unwrap_or("").to_string();
            eprintln!("seed {0}: JAZMOTIP_SEED={0} cargo test {test} runs this case alone", self.0);
        }
    }
}

/// Runs a case for `count` seeds, or for the one that JAZMOTIP_SEED names. True if all of them ran.
pub fn cases(count: u64, mut case: impl FnMut(&mut Random)) -> bool {
    let mut run = |seed| {
        let _announced = Announced(seed);
        case(&mut Random::new(seed));
    };
    match variable("JAZMOTIP_SEED") {
        Some(seed) => {
            run(seed);
            false
        }
        None => {
            (1..=count * variable("JAZMOTIP_CASES").unwrap_or(1)).for_each(run);
            true
        }
    }
}
