//! Payloads and blocks for the store (02, C-12), by transposing rows of nine octets.

use super::capture::{self, Refused};
use super::payload::check_lengths;
use super::Reply;

/// The columns of rows of `width` octets, one after the other.
fn transposed(octets: &[u8], width: usize) -> Vec<u8> {
    (0..width).flat_map(|column| octets.iter().skip(column).step_by(width).copied()).collect()
}

/// Nine columns for the store; on the way back each of the nine planes is a row.
fn moved(back: bool, payload: &[u8]) -> Vec<u8> {
    match (payload.len() / 9, back) {
        (0, _) => Vec::new(),
        (eqs, true) => transposed(payload, eqs),
        (_, false) => transposed(payload, 9),
    }
}

pub fn payload(back: bool, payload: &[u8], output: usize) -> Reply<Vec<u8>> {
    check_lengths(payload.len(), output)?;
    Ok(moved(back, payload))
}

pub fn block(back: bool, block: &[u8], output: usize) -> Result<Vec<u8>, Refused> {
    if output != block.len() {
        return Err(Refused::from(14));
    }
    let mut octets = block.to_vec();
    for record in capture::directory(block)? {
        octets[record.payload.clone()].copy_from_slice(&moved(back, &block[record.payload]));
    }
    Ok(octets)
}
