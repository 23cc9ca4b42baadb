//! Exercises, with `Result`: which lost message of a script matters. A script is the key timer's interval (8 octets), then at most 64
//! steps of a kind (1 octet: 0 clock message, 1 offer, 2 retry, 3 clock or 4 key acknowledgement, 5 envelope down, 6 up, 7 advance) and
//! ticks (8 octets; 0 but for an advance), all big-endian.

use crate::calls;
use crate::refusal::Refusal;

/// The first step, from 1, whose loss alone changes the final A, C or a, or none.
pub fn first_loss(script: &[u8]) -> Result<Option<usize>, Refusal> {
    let loss = calls::first_loss(script);
    Refusal::verdict(loss.number)?;
    Ok(if loss.step == 0 { None } else { Some(loss.step) })
}
