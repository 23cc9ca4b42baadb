//! The calls of the C header, one function each: values and slices in, the answer's record out, with the refusal code in its `number`.
//!
//! For a host that wants the records as they cross. [`Olt`], [`Onu`], [`RoundKeys`], [`capture`](crate::capture) and
//! [`xgpon`](crate::xgpon) say the same with `Result`.

// Every block marked unsafe here lends slices and arrays for the time of one call: they are valid for their lengths, and `&mut`
// keeps an output apart from what is read. The engine asks nothing else of its caller.

use crate::raw;
use crate::records::xgpon::{Answer, InputRecord, KeyExchange, TimerStarts, ValidKeys};
use crate::records::*;
use crate::LISTING_OCTETS;

pub fn olt_fresh(mac: u64, clock: u64) -> OltAnswer {
    unsafe { raw::jazmotip_olt_fresh(mac, clock) }
}

/// Order of refusals: 1, 3, 4. Here and below, 1 for an invalid end stands ahead of the order.
pub fn olt_register(olt: Olt, identity: Identity, trip: u64, interval: u64) -> OltAnswer {
    unsafe { raw::jazmotip_olt_register(olt, identity, trip, interval) }
}

/// Order of refusals: 1, 21, 3, 4.
pub fn olt_register_group(olt: Olt, llid: u16, interval: u64, roster: Roster) -> OltAnswer {
    unsafe { raw::jazmotip_olt_register_group(olt, llid, interval, roster) }
}

/// Order of refusals: 17.
pub fn olt_advance(olt: &mut Olt, n: u64) -> u8 {
    unsafe { raw::jazmotip_olt_advance(olt, n) }
}

/// Order of refusals: 2, for a group's LLID too.
pub fn olt_capture(olt: Olt, llid: u16) -> OltAnswer {
    unsafe { raw::jazmotip_olt_capture(olt, llid) }
}

/// Order of refusals: 1, 2, for a group's LLID too.
pub fn olt_measure(olt: Olt, llid: u16, trip: u64) -> OltAnswer {
    unsafe { raw::jazmotip_olt_measure(olt, llid, trip) }
}

/// Order of refusals: 2, for a group's LLID too, 8, 16.
pub fn olt_clock_send(olt: Olt, llid: u16) -> ClockSent {
    unsafe { raw::jazmotip_olt_clock_send(olt, llid) }
}

/// Order of refusals: 2, 5 (for a group until the clock of every member is acknowledged), 6, 7, 17.
pub fn olt_offer(olt: Olt, llid: u16, key: &[u8; 16]) -> KeySent {
    unsafe { raw::jazmotip_olt_offer(olt, llid, key.as_ptr()) }
}

/// Order of refusals: 2, 8.
pub fn olt_retry(olt: Olt, llid: u16) -> KeySent {
    unsafe { raw::jazmotip_olt_retry(olt, llid) }
}

/// Order of refusals: 2, for a group's LLID with kind 1 too, 8.
pub fn olt_acknowledge(olt: Olt, llid: u16, acknowledgement: Acknowledgement) -> OltAnswer {
    unsafe { raw::jazmotip_olt_acknowledge(olt, llid, acknowledgement) }
}

/// Order of refusals: 14, 1, 2, 5 (sealed ones to a unit only), 12, 13.
pub fn olt_send(olt: Olt, llid: u16, channel: u8, payload: &[u8], output: &mut [u8]) -> OltSent {
    unsafe { raw::jazmotip_olt_send(olt, llid, channel, payload.as_ptr(), payload.len(), output.as_mut_ptr(), output.len()) }
}

/// Order of refusals: 14, 1, 2, 20, 10, 11, 9.
pub fn olt_receive(olt: Olt, header: Header, octets: &[u8], output: &mut [u8]) -> OltReceived {
    unsafe { raw::jazmotip_olt_receive(olt, header, octets.as_ptr(), octets.len(), output.as_mut_ptr(), output.len()) }
}

pub fn onu_fresh(identity: Identity, oltmac: u64, time: u64) -> OnuAnswer {
    unsafe { raw::jazmotip_onu_fresh(identity, oltmac, time) }
}

/// Order of refusals: 3, 4.
pub fn onu_join(onu: Onu, llid: u16) -> OnuAnswer {
    unsafe { raw::jazmotip_onu_join(onu, llid) }
}

/// Order of refusals: 17.
pub fn onu_advance(onu: &mut Onu, n: u64) -> u8 {
    unsafe { raw::jazmotip_onu_advance(onu, n) }
}

/// Order of refusals: 1, 17.
pub fn onu_new_time(onu: Onu, time: u64) -> OnuAnswer {
    unsafe { raw::jazmotip_onu_new_time(onu, time) }
}

/// Order of refusals: 1.
pub fn onu_clock_message(onu: Onu, message: Stamps) -> OnuAcknowledged {
    unsafe { raw::jazmotip_onu_clock_message(onu, message) }
}

/// Order of refusals: 2, 5, 8.
pub fn onu_key_message(onu: Onu, message: KeyMessage) -> OnuAcknowledged {
    unsafe { raw::jazmotip_onu_key_message(onu, message) }
}

/// Order of refusals: 14, 1, 2, 20, 5 (sealed ones only), 12, 13.
pub fn onu_send(onu: Onu, llid: u16, channel: u8, payload: &[u8], output: &mut [u8]) -> OnuSent {
    unsafe { raw::jazmotip_onu_send(onu, llid, channel, payload.as_ptr(), payload.len(), output.as_mut_ptr(), output.len()) }
}

/// Order of refusals: 14, 1, 2, 10 (not while unsynced), 5 (sealed ones only), 11, 9.
pub fn onu_receive(onu: Onu, header: Header, octets: &[u8], output: &mut [u8]) -> OnuReceived {
    unsafe { raw::jazmotip_onu_receive(onu, header, octets.as_ptr(), octets.len(), output.as_mut_ptr(), output.len()) }
}

pub fn expand_key(key: &[u8; 16]) -> RoundKeys {
    unsafe { raw::jazmotip_expand_key(key.as_ptr()) }
}

/// Seals, or opens what was sealed; `encenabled` 0 copies, with count and runs 0. Order of refusals: 14, 1.
pub fn seal(encenabled: u8, key: &[u8; 16], nonce: Nonce, input: &[u8], output: &mut [u8]) -> PayloadAnswer {
    unsafe {
        raw::jazmotip_seal(encenabled, key.as_ptr(), nonce, input.as_ptr(), input.len(), output.as_mut_ptr(), output.len())
    }
}

/// [`seal`] under a key that was expanded once.
pub fn seal_expanded(encenabled: u8, keys: RoundKeys, nonce: Nonce, input: &[u8], output: &mut [u8]) -> PayloadAnswer {
    unsafe {
        raw::jazmotip_seal_expanded(encenabled, keys, nonce, input.as_ptr(), input.len(), output.as_mut_ptr(), output.len())
    }
}

/// [`seal`] with the payload as input and output.
pub fn seal_in_place(encenabled: u8, key: &[u8; 16], nonce: Nonce, payload: &mut [u8]) -> PayloadAnswer {
    unsafe { raw::jazmotip_seal_in_place(encenabled, key.as_ptr(), nonce, payload.as_mut_ptr(), payload.len()) }
}

/// [`seal_expanded`] with the payload as input and output.
pub fn seal_expanded_in_place(encenabled: u8, keys: RoundKeys, nonce: Nonce, payload: &mut [u8]) -> PayloadAnswer {
    unsafe { raw::jazmotip_seal_expanded_in_place(encenabled, keys, nonce, payload.as_mut_ptr(), payload.len()) }
}

/// The octets that sealing a payload enciphers: over all whole EQs, eight minus the ones in the control octet.
pub fn count(payload: &[u8]) -> u64 {
    unsafe { raw::jazmotip_count(payload.as_ptr(), payload.len()) }
}

/// Order of refusals: 15, then 18 and 19.
pub fn capture_directory(block: &[u8]) -> BlockDirectory {
    unsafe { raw::jazmotip_capture_directory(block.as_ptr(), block.len()) }
}

/// Order of refusals: 14 and 1 for the settings, 15, 18 and 19, 1 for `k`, then the record's own 1, 2, 10, 9.
pub fn capture_verdict(settings: &[u8], block: &[u8], k: usize) -> BlockVerdict {
    unsafe { raw::jazmotip_capture_verdict(settings.as_ptr(), settings.len(), block.as_ptr(), block.len(), k) }
}

/// The code of the verdict on record `k` at octet `k - 1` of an output of 256. Order of refusals: 14 for the output, 14 and 1 for
/// the settings, 15, then 18 and 19.
pub fn capture_verdicts(settings: &[u8], block: &[u8], output: &mut [u8]) -> BlockDirectory {
    unsafe {
        raw::jazmotip_capture_verdicts(
            settings.as_ptr(),
            settings.len(),
            block.as_ptr(),
            block.len(),
            output.as_mut_ptr(),
            output.len(),
        )
    }
}

/// Order of refusals: 15, 18 and 19, 1.
pub fn capture_payload(block: &[u8], k: usize) -> BlockPart {
    unsafe { raw::jazmotip_capture_payload(block.as_ptr(), block.len(), k) }
}

/// Order of refusals: 14, 1, 15, then 18 and 19.
pub fn capture_open(settings: &[u8], block: &[u8], output: &mut [u8]) -> BlockAnswer {
    unsafe {
        raw::jazmotip_capture_open(
            settings.as_ptr(),
            settings.len(),
            block.as_ptr(),
            block.len(),
            output.as_mut_ptr(),
            output.len(),
        )
    }
}

/// Gives the length of the listing; `text` past it stays.
pub fn capture_list(settings: &[u8], block: &[u8], text: &mut [u8; LISTING_OCTETS]) -> usize {
    unsafe { raw::jazmotip_capture_list(settings.as_ptr(), settings.len(), block.as_ptr(), block.len(), text.as_mut_ptr()) }
}

/// [`capture_verdict`] in the near way (02, C-18), with the same order of refusals.
pub fn capture_verdict_near(settings: &[u8], block: &[u8], k: usize) -> BlockVerdict {
    unsafe { raw::jazmotip_capture_verdict_near(settings.as_ptr(), settings.len(), block.as_ptr(), block.len(), k) }
}

/// [`capture_verdicts`] in the near way, with the same order of refusals.
pub fn capture_verdicts_near(settings: &[u8], block: &[u8], output: &mut [u8]) -> BlockNearVerdicts {
    unsafe {
        raw::jazmotip_capture_verdicts_near(
            settings.as_ptr(),
            settings.len(),
            block.as_ptr(),
            block.len(),
            output.as_mut_ptr(),
            output.len(),
        )
    }
}

/// [`capture_open`] in the near way, with the same order of refusals.
pub fn capture_open_near(settings: &[u8], block: &[u8], output: &mut [u8]) -> BlockNearAnswer {
    unsafe {
        raw::jazmotip_capture_open_near(
            settings.as_ptr(),
            settings.len(),
            block.as_ptr(),
            block.len(),
            output.as_mut_ptr(),
            output.len(),
        )
    }
}

/// [`capture_list`] in the near way.
pub fn capture_list_near(settings: &[u8], block: &[u8], text: &mut [u8; LISTING_OCTETS]) -> usize {
    unsafe {
        raw::jazmotip_capture_list_near(settings.as_ptr(), settings.len(), block.as_ptr(), block.len(), text.as_mut_ptr())
    }
}

/// Order of refusals: 23, 14, 1, 3, 15, 18 and 19; of a record: hidden, 1, 10, seen, 9.
pub fn class_open(caller: Caller, sets: &[u8], rights: &[u8], block: &[u8], output: &mut [u8]) -> BlockAnswer {
    unsafe {
        raw::jazmotip_class_open(
            caller,
            sets.as_ptr(),
            sets.len(),
            rights.as_ptr(),
            rights.len(),
            block.as_ptr(),
            block.len(),
            output.as_mut_ptr(),
            output.len(),
        )
    }
}

/// [`class_open`] in the near way, with the same order of refusals.
pub fn class_open_near(caller: Caller, sets: &[u8], rights: &[u8], block: &[u8], output: &mut [u8]) -> BlockNearAnswer {
    unsafe {
        raw::jazmotip_class_open_near(
            caller,
            sets.as_ptr(),
            sets.len(),
            rights.as_ptr(),
            rights.len(),
            block.as_ptr(),
            block.len(),
            output.as_mut_ptr(),
            output.len(),
        )
    }
}

/// The order of [`class_open`]; gives the length of the text.
pub fn class_list(caller: Caller, sets: &[u8], rights: &[u8], block: &[u8], text: &mut [u8; LISTING_OCTETS]) -> usize {
    unsafe {
        raw::jazmotip_class_list(
            caller,
            sets.as_ptr(),
            sets.len(),
            rights.as_ptr(),
            rights.len(),
            block.as_ptr(),
            block.len(),
            text.as_mut_ptr(),
        )
    }
}

/// [`class_list`] in the near way.
pub fn class_list_near(caller: Caller, sets: &[u8], rights: &[u8], block: &[u8], text: &mut [u8; LISTING_OCTETS]) -> usize {
    unsafe {
        raw::jazmotip_class_list_near(
            caller,
            sets.as_ptr(),
            sets.len(),
            rights.as_ptr(),
            rights.len(),
            block.as_ptr(),
            block.len(),
            text.as_mut_ptr(),
        )
    }
}

/// Order of refusals: 23, 14, 1 for an index above 1, presence and rights, 3, 24.
pub fn class_load(caller: Caller, sets: &mut [u8], rights: &[u8], llid: u16, index: u8, key: &[u8; 16]) -> u8 {
    unsafe {
        raw::jazmotip_class_load(
            caller,
            sets.as_mut_ptr(),
            sets.len(),
            rights.as_ptr(),
            rights.len(),
            llid,
            index,
            key.as_ptr(),
        )
    }
}

/// 0 or 14.
pub fn rearrange(payload: &[u8], output: &mut [u8]) -> u8 {
    unsafe { raw::jazmotip_rearrange(payload.as_ptr(), payload.len(), output.as_mut_ptr(), output.len()) }
}

/// 0 or 14.
pub fn restore(payload: &[u8], output: &mut [u8]) -> u8 {
    unsafe { raw::jazmotip_restore(payload.as_ptr(), payload.len(), output.as_mut_ptr(), output.len()) }
}

/// Order of refusals: 14, 15, then 18 and 19.
pub fn capture_rearrange(block: &[u8], output: &mut [u8]) -> StoreAnswer {
    unsafe { raw::jazmotip_capture_rearrange(block.as_ptr(), block.len(), output.as_mut_ptr(), output.len()) }
}

/// Order of refusals: 14, 15, then 18 and 19.
pub fn capture_restore(block: &[u8], output: &mut [u8]) -> StoreAnswer {
    unsafe { raw::jazmotip_capture_restore(block.as_ptr(), block.len(), output.as_mut_ptr(), output.len()) }
}

/// Order of refusals: 14 for an output that is not [`ENTRIES`](crate::ENTRIES) octets; the first block's 15, 18 and 19, 1 for any of
/// its records; the second's; 22 for the first block, 22 for the second.
pub fn capture_compare(llid: u16, first: &[u8], second: &[u8], output: &mut [u8]) -> Comparison {
    unsafe {
        raw::jazmotip_capture_compare(
            llid,
            first.as_ptr(),
            first.len(),
            second.as_ptr(),
            second.len(),
            output.as_mut_ptr(),
            output.len(),
        )
    }
}

pub fn xgpon_fresh() -> KeyExchange {
    unsafe { raw::jazmotip_xgpon_fresh() }
}

/// Order of refusals: 1 for an exchange outside its values and for an unknown kind, 25.
pub fn xgpon_step(exchange: KeyExchange, input: InputRecord) -> Answer {
    unsafe { raw::jazmotip_xgpon_step(exchange, input) }
}

/// Order of refusals: 1.
pub fn xgpon_sent_under(exchange: KeyExchange) -> ValidKeys {
    unsafe { raw::jazmotip_xgpon_sent_under(exchange) }
}

/// Order of refusals: 1.
pub fn xgpon_received_under(exchange: KeyExchange) -> ValidKeys {
    unsafe { raw::jazmotip_xgpon_received_under(exchange) }
}

pub fn xgpon_recommended_starts() -> TimerStarts {
    unsafe { raw::jazmotip_xgpon_recommended_starts() }
}

/// Order of refusals: 1 for the interval, 26.
pub fn first_loss(script: &[u8]) -> Loss {
    unsafe { raw::jazmotip_first_loss(script.as_ptr(), script.len()) }
}
