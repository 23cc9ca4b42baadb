//! Counter block, control mask, sealing and opening (01, Counter block and mask).

use super::aes::Schedule;
use super::{refuse_if, Key, Passed, Reply, CLOCK};

pub const MOST_EQS: usize = 4_194_303;

/// Channel index, sender's MAC, cipher clock at the header, block index; all big-endian.
pub fn counter_block(channel: u8, mac: u64, clock: u64, block: u64) -> [u8; 16] {
    let mut octets = Vec::with_capacity(16);
    octets.push(channel);
    octets.extend_from_slice(&mac.to_be_bytes()[2..]);
    octets.extend_from_slice(&clock.to_be_bytes()[2..]);
    octets.extend_from_slice(&block.to_be_bytes()[5..]);
    octets.try_into().expect("1 + 6 + 6 + 3 octets")
}

/// Seals or opens, and counts the octets enciphered and the blocks that have one.
pub fn pass(key: &Key, channel: u8, mac: u64, clock: u64, payload: &[u8]) -> Passed {
    pass_expanded(&Schedule::new(key), channel, mac, clock, payload)
}

fn pass_expanded(schedule: &Schedule, channel: u8, mac: u64, clock: u64, payload: &[u8]) -> Passed {
    let mut out = payload.to_vec();
    let (mut count, mut runs) = (0, 0);
    // two EQs share a block
    for (block, eqs) in out.chunks_mut(18).enumerate() {
        let stream = schedule.encrypt(counter_block(channel, mac, clock, block as u64));
        let before = count;
        for (eq, half) in eqs.chunks_mut(9).zip(stream.chunks(8)) {
            let control = eq[0];
            for j in 0..8 {
                if control & (1 << j) == 0 {
                    eq[1 + j] ^= half[j];
                    count += 1;
                }
            }
        }
        runs += u64::from(count > before);
    }
    Passed { octets: out, count, runs }
}

/// 14: a payload that is no multiple of 9 or too long, or an output of another length.
pub fn check_lengths(payload: usize, output: usize) -> Reply<()> {
    refuse_if(!payload.is_multiple_of(9) || payload / 9 > MOST_EQS || payload != output, 14)
}

/// Sealing as a call of its own: 14, then 1.
pub fn seal(encenabled: u8, keys: &Schedule, nonce: jazmotip::Nonce, input: &[u8], output: usize) -> Reply<Passed> {
    check_lengths(input.len(), output)?;
    let index_known = [0x00, 0x01, 0x80, 0x81].contains(&nonce.channel);
    refuse_if(encenabled > 1 || !index_known || nonce.mac >= CLOCK || nonce.clock >= CLOCK, 1)?;
    Ok(match encenabled {
        0 => Passed::clear(input),
        _ => pass_expanded(keys, nonce.channel, nonce.mac, nonce.clock, input),
    })
}

/// "Over all EQs, eight minus the ones in the control octet"; octets past the last whole EQ are no EQ.
pub fn count(payload: &[u8]) -> u64 {
    payload.chunks_exact(9).map(|eq| 8 - u64::from(eq[0].count_ones())).sum()
}
