//! The capture reader with a receive clock that is known only within 31 ticks (02, C-18).
//!
//! A header is read at the clock, modulo 2^48, nearest to the one expected whose low six bits equal EPAM; a difference of exactly 32,
//! or EPAM above 63, is [`EpamDiffers`](Refusal::EpamDiffers). The corrections at headers past 1, 2 and 10 add up per channel index, from
//! 0 in each call, and the clock expected is the record's plus that sum. The clock fields of an opened block stay as recorded.

use super::{opening, Opened, Opening};
use crate::calls;
use crate::refusal::Refusal;
use crate::{LISTING_OCTETS, RECORDS};

/// The smallest and the largest correction of a call: the clock taken less the one expected. Both 0 where no header was past 1, 2 and 10.
#[derive(Clone, Copy, Debug, PartialEq, Eq)]
pub struct Corrections {
    pub smallest: i8,
    pub largest: i8,
}

/// [`verdict`](super::verdict) in the near way: the headers before record `k` are read for their corrections.
pub fn verdict(settings: &[u8], block: &[u8], k: usize) -> Result<Option<Opening>, Refusal> {
    opening(calls::capture_verdict_near(settings, block, k))
}

/// [`verdicts`](super::verdicts) in the near way.
pub fn verdicts<'a>(settings: &[u8], block: &[u8], numbers: &'a mut [u8; RECORDS]) -> Result<(&'a [u8], Corrections), Refusal> {
    let near = calls::capture_verdicts_near(settings, block, numbers);
    Refusal::block_verdict(near.directory.number, near.directory.pair).map(|()| {
        let corrections = Corrections { smallest: near.smallest, largest: near.largest };
        (&numbers[..near.directory.records], corrections)
    })
}

/// [`open`](super::open) in the near way.
pub fn open(settings: &[u8], block: &[u8], output: &mut [u8]) -> Result<(Opened, Corrections), Refusal> {
    let near = calls::capture_open_near(settings, block, output);
    super::opened(near.answer).map(|opened| (opened, Corrections { smallest: near.smallest, largest: near.largest }))
}

/// [`list`](super::list) in the near way.
pub fn list<'a>(settings: &[u8], block: &[u8], text: &'a mut [u8; LISTING_OCTETS]) -> &'a str {
    let length = calls::capture_list_near(settings, block, text);
    super::text(&text[..length])
}
