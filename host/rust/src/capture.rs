//! The capture reader with `Result`. Settings are 41 octets: presence (bit 0 key 0, bit 1 key 1), key 0 (16), key 1 (16), the
//! sender's MAC (6), LLID (2), big-endian. All records are opened with that MAC, whichever their direction: one of another sender
//! opens to noise. Records count from 1.

pub mod near;

use crate::calls;
use crate::refusal::Refusal;
use crate::{BlockAnswer, BlockVerdict, LISTING_OCTETS, RECORDS};

/// The key and clock that a sealed record opens under.
#[derive(Clone, Copy, Debug, PartialEq, Eq)]
pub struct Opening {
    pub enckey: u8,
    pub clock: u64,
}

/// What opening a block took.
#[derive(Clone, Copy, Debug, PartialEq, Eq)]
pub struct Opened {
    /// Octets deciphered, over all opened records.
    pub count: u64,
    /// Runs of the cipher, over all opened records; clear and refused ones take none.
    pub runs: u64,
    /// Keys expanded: each that is present, once, used or not.
    pub expansions: u8,
}

/// How many records a block has, or what is wrong with its directory.
pub fn records(block: &[u8]) -> Result<usize, Refusal> {
    let directory = calls::capture_directory(block);
    Refusal::block_verdict(directory.number, directory.pair).map(|()| directory.records)
}

/// Whether opening opens record `k`: under what, or `None` where it is clear.
pub fn verdict(settings: &[u8], block: &[u8], k: usize) -> Result<Option<Opening>, Refusal> {
    opening(calls::capture_verdict(settings, block, k))
}

fn opening(verdict: BlockVerdict) -> Result<Option<Opening>, Refusal> {
    Refusal::block_verdict(verdict.number, verdict.pair)
        .map(|()| (verdict.encenabled == 1).then_some(Opening { enckey: verdict.enckey, clock: verdict.clock }))
}

/// The codes of the verdicts on all records, 0 for acceptance, that on record `k` at `k - 1`; `numbers` past them stay.
pub fn verdicts<'a>(settings: &[u8], block: &[u8], numbers: &'a mut [u8; RECORDS]) -> Result<&'a [u8], Refusal> {
    let directory = calls::capture_verdicts(settings, block, numbers);
    Refusal::block_verdict(directory.number, directory.pair).map(|()| &numbers[..directory.records])
}

/// The payload of record `k`, opened or not.
pub fn payload(block: &[u8], k: usize) -> Result<&[u8], Refusal> {
    let part = calls::capture_payload(block, k);
    Refusal::block_verdict(part.number, part.pair).map(|()| &block[part.offset..part.offset + part.length])
}

/// Opens every record that can be into `output`, of the block's length, and copies the others; gives what that took.
pub fn open(settings: &[u8], block: &[u8], output: &mut [u8]) -> Result<Opened, Refusal> {
    opened(calls::capture_open(settings, block, output))
}

pub(crate) fn opened(answer: BlockAnswer) -> Result<Opened, Refusal> {
    Refusal::block_verdict(answer.number, answer.pair).map(|()| Opened {
        count: answer.count,
        runs: answer.runs,
        expansions: answer.expansions,
    })
}

/// The listing of a block: a heading, then a line for each record; of a refused call, the heading and a line such as
/// `refused 15`, or `refused 18 2` with the broken pair.
pub fn list<'a>(settings: &[u8], block: &[u8], text: &'a mut [u8; LISTING_OCTETS]) -> &'a str {
    let length = calls::capture_list(settings, block, text);
    self::text(&text[..length])
}

pub(crate) fn text(listing: &[u8]) -> &str {
    core::str::from_utf8(listing).expect("a listing is plain ASCII")
}
