//! What the calls on a capture block must answer: what the reference says of it, as their records.

use crate::reference::capture::{self, Opened, Refused, Way};
use jazmotip::{BlockAnswer, BlockDirectory, BlockNearAnswer, BlockNearVerdicts, BlockPart, BlockVerdict};

pub fn directory(block: &[u8]) -> BlockDirectory {
    match capture::directory(block) {
        Ok(records) => BlockDirectory { number: 0, pair: 0, records: records.len() },
        Err(Refused { number, pair }) => BlockDirectory { number, pair, records: 0 },
    }
}

pub fn verdict(settings: &[u8], block: &[u8], k: usize, way: Way) -> BlockVerdict {
    match capture::verdict(settings, block, k, way) {
        Ok(None) => BlockVerdict::default(),
        Ok(Some((enckey, clock))) => BlockVerdict { number: 0, encenabled: 1, enckey, pair: 0, clock },
        Err(Refused { number, pair }) => BlockVerdict { number, pair, ..BlockVerdict::default() },
    }
}

/// The answer of the call for all verdicts, into an output of so many octets, and the numbers, if they are written. The usual call
/// answers with its directory.
pub fn verdicts(settings: &[u8], block: &[u8], output: usize, way: Way) -> (BlockNearVerdicts, Option<Vec<u8>>) {
    match capture::verdicts(settings, block, output, way) {
        Ok((numbers, (smallest, largest))) => {
            let directory = BlockDirectory { number: 0, pair: 0, records: numbers.len() };
            (BlockNearVerdicts { directory, smallest, largest }, Some(numbers))
        }
        Err(Refused { number, pair }) => {
            let directory = BlockDirectory { number, pair, records: 0 };
            (BlockNearVerdicts { directory, ..BlockNearVerdicts::default() }, None)
        }
    }
}

pub fn part(block: &[u8], k: usize) -> BlockPart {
    match capture::part(block, k) {
        Ok(range) => BlockPart { number: 0, pair: 0, offset: range.start, length: range.len() },
        Err(Refused { number, pair }) => BlockPart { number, pair, ..BlockPart::default() },
    }
}

/// The answer of opening into an output of so many octets, and what that then holds, if it is written. The usual call answers
/// without corrections.
pub fn open(settings: &[u8], block: &[u8], output: usize, way: Way) -> (BlockNearAnswer, Option<Vec<u8>>) {
    match capture::open(settings, block, output, way) {
        Ok(Opened { octets, count, runs, expansions, corrections: (smallest, largest) }) => {
            let answer = BlockAnswer { number: 0, expansions, pair: 0, count, runs };
            (BlockNearAnswer { answer, smallest, largest }, Some(octets))
        }
        Err(Refused { number, pair }) => {
            let answer = BlockAnswer { number, pair, ..BlockAnswer::default() };
            (BlockNearAnswer { answer, ..BlockNearAnswer::default() }, None)
        }
    }
}
