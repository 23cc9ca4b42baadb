//! Payloads and capture blocks for the store, with `Result`. Rearranged, a payload is its planes: all control octets, then data octet
//! 0 of every EQ, then data octet 1, up to 7. Restoring is the inverse; each undoes the other.

use crate::calls;
use crate::refusal::Refusal;

/// The planes of a payload, into `output`, of its length.
pub fn rearrange(payload: &[u8], output: &mut [u8]) -> Result<(), Refusal> {
    Refusal::verdict(calls::rearrange(payload, output))
}

/// The payload of its planes, into `output`, of their length.
pub fn restore(payload: &[u8], output: &mut [u8]) -> Result<(), Refusal> {
    Refusal::verdict(calls::restore(payload, output))
}

/// All payloads of a capture block rearranged, into `output`, of its length; directory and headers stay.
pub fn rearrange_block(block: &[u8], output: &mut [u8]) -> Result<(), Refusal> {
    let answer = calls::capture_rearrange(block, output);
    Refusal::block_verdict(answer.number, answer.pair)
}

/// All payloads of a capture block restored, into `output`, of its length; directory and headers stay.
pub fn restore_block(block: &[u8], output: &mut [u8]) -> Result<(), Refusal> {
    let answer = calls::capture_restore(block, output);
    Refusal::block_verdict(answer.number, answer.pair)
}
