//! The functions of `libjazmotip.a`, declared as in `host/include/jazmotip.h`. [`calls`](crate::calls) wraps each of them.
//!
//! # Safety
//! A pointer with a length points to that many octets that may be read, and written for an output; with length 0 it is any pointer,
//! null too. A key is 16 octets, a listing's text [`LISTING_OCTETS`](crate::LISTING_OCTETS). An output overlaps nothing else that
//! is lent in the same call.

use crate::records::xgpon::{Answer, InputRecord, KeyExchange, TimerStarts, ValidKeys};
use crate::records::*;

extern "C" {
    pub fn jazmotip_olt_fresh(mac: u64, clock: u64) -> OltAnswer;
    pub fn jazmotip_olt_register(olt: Olt, identity: Identity, trip: u64, interval: u64) -> OltAnswer;
    pub fn jazmotip_olt_register_group(olt: Olt, llid: u16, interval: u64, roster: Roster) -> OltAnswer;
    pub fn jazmotip_olt_advance(olt: *mut Olt, n: u64) -> u8;
    pub fn jazmotip_olt_capture(olt: Olt, llid: u16) -> OltAnswer;
    pub fn jazmotip_olt_measure(olt: Olt, llid: u16, trip: u64) -> OltAnswer;
    pub fn jazmotip_olt_clock_send(olt: Olt, llid: u16) -> ClockSent;
    pub fn jazmotip_olt_offer(olt: Olt, llid: u16, key: *const u8) -> KeySent;
    pub fn jazmotip_olt_retry(olt: Olt, llid: u16) -> KeySent;
    pub fn jazmotip_olt_acknowledge(olt: Olt, llid: u16, acknowledgement: Acknowledgement) -> OltAnswer;
    pub fn jazmotip_olt_send(
        olt: Olt,
        llid: u16,
        channel: u8,
        payload: *const u8,
        payload_length: usize,
        output: *mut u8,
        output_length: usize,
    ) -> OltSent;
    pub fn jazmotip_olt_receive(
        olt: Olt,
        header: Header,
        octets: *const u8,
        octets_length: usize,
        output: *mut u8,
        output_length: usize,
    ) -> OltReceived;

    pub fn jazmotip_onu_fresh(identity: Identity, oltmac: u64, time: u64) -> OnuAnswer;
    pub fn jazmotip_onu_join(onu: Onu, llid: u16) -> OnuAnswer;
    pub fn jazmotip_onu_advance(onu: *mut Onu, n: u64) -> u8;
    pub fn jazmotip_onu_new_time(onu: Onu, time: u64) -> OnuAnswer;
    pub fn jazmotip_onu_clock_message(onu: Onu, message: Stamps) -> OnuAcknowledged;
    pub fn jazmotip_onu_key_message(onu: Onu, message: KeyMessage) -> OnuAcknowledged;
    pub fn jazmotip_onu_send(
        onu: Onu,
        llid: u16,
        channel: u8,
        payload: *const u8,
        payload_length: usize,
        output: *mut u8,
        output_length: usize,
    ) -> OnuSent;
    pub fn jazmotip_onu_receive(
        onu: Onu,
        header: Header,
        octets: *const u8,
        octets_length: usize,
        output: *mut u8,
        output_length: usize,
    ) -> OnuReceived;

    pub fn jazmotip_expand_key(key: *const u8) -> RoundKeys;
    pub fn jazmotip_seal(
        encenabled: u8,
        key: *const u8,
        nonce: Nonce,
        input: *const u8,
        input_length: usize,
        output: *mut u8,
        output_length: usize,
    ) -> PayloadAnswer;
    pub fn jazmotip_seal_expanded(
        encenabled: u8,
        keys: RoundKeys,
        nonce: Nonce,
        input: *const u8,
        input_length: usize,
        output: *mut u8,
        output_length: usize,
    ) -> PayloadAnswer;
    pub fn jazmotip_seal_in_place(
        encenabled: u8,
        key: *const u8,
        nonce: Nonce,
        payload: *mut u8,
        payload_length: usize,
    ) -> PayloadAnswer;
    pub fn jazmotip_seal_expanded_in_place(
        encenabled: u8,
        keys: RoundKeys,
        nonce: Nonce,
        payload: *mut u8,
        payload_length: usize,
    ) -> PayloadAnswer;
    pub fn jazmotip_count(payload: *const u8, payload_length: usize) -> u64;

    pub fn jazmotip_capture_directory(block: *const u8, block_length: usize) -> BlockDirectory;
    pub fn jazmotip_capture_verdict(
        settings: *const u8,
        settings_length: usize,
        block: *const u8,
        block_length: usize,
        k: usize,
    ) -> BlockVerdict;
    pub fn jazmotip_capture_verdicts(
        settings: *const u8,
        settings_length: usize,
        block: *const u8,
        block_length: usize,
        output: *mut u8,
        output_length: usize,
    ) -> BlockDirectory;
    pub fn jazmotip_capture_payload(block: *const u8, block_length: usize, k: usize) -> BlockPart;
    pub fn jazmotip_capture_open(
        settings: *const u8,
        settings_length: usize,
        block: *const u8,
        block_length: usize,
        output: *mut u8,
        output_length: usize,
    ) -> BlockAnswer;
    pub fn jazmotip_capture_list(
        settings: *const u8,
        settings_length: usize,
        block: *const u8,
        block_length: usize,
        text: *mut u8,
    ) -> usize;
    pub fn jazmotip_capture_verdict_near(
        settings: *const u8,
        settings_length: usize,
        block: *const u8,
        block_length: usize,
        k: usize,
    ) -> BlockVerdict;
    pub fn jazmotip_capture_verdicts_near(
        settings: *const u8,
        settings_length: usize,
        block: *const u8,
        block_length: usize,
        output: *mut u8,
        output_length: usize,
    ) -> BlockNearVerdicts;
    pub fn jazmotip_capture_open_near(
        settings: *const u8,
        settings_length: usize,
        block: *const u8,
        block_length: usize,
        output: *mut u8,
        output_length: usize,
    ) -> BlockNearAnswer;
    pub fn jazmotip_capture_list_near(
        settings: *const u8,
        settings_length: usize,
        block: *const u8,
        block_length: usize,
        text: *mut u8,
    ) -> usize;

    pub fn jazmotip_class_open(
        caller: Caller,
        sets: *const u8,
        sets_length: usize,
        rights: *const u8,
        rights_length: usize,
        block: *const u8,
        block_length: usize,
        output: *mut u8,
        output_length: usize,
    ) -> BlockAnswer;
    pub fn jazmotip_class_open_near(
        caller: Caller,
        sets: *const u8,
        sets_length: usize,
        rights: *const u8,
        rights_length: usize,
        block: *const u8,
        block_length: usize,
        output: *mut u8,
        output_length: usize,
    ) -> BlockNearAnswer;
    pub fn jazmotip_class_list(
        caller: Caller,
        sets: *const u8,
        sets_length: usize,
        rights: *const u8,
        rights_length: usize,
        block: *const u8,
        block_length: usize,
        text: *mut u8,
    ) -> usize;
    pub fn jazmotip_class_list_near(
        caller: Caller,
        sets: *const u8,
        sets_length: usize,
        rights: *const u8,
        rights_length: usize,
        block: *const u8,
        block_length: usize,
        text: *mut u8,
    ) -> usize;
    pub fn jazmotip_class_load(
        caller: Caller,
        sets: *mut u8,
        sets_length: usize,
        rights: *const u8,
        rights_length: usize,
        llid: u16,
        index: u8,
        key: *const u8,
    ) -> u8;

    pub fn jazmotip_rearrange(payload: *const u8, payload_length: usize, output: *mut u8, output_length: usize) -> u8;
    pub fn jazmotip_restore(payload: *const u8, payload_length: usize, output: *mut u8, output_length: usize) -> u8;
    pub fn jazmotip_capture_rearrange(
        block: *const u8,
        block_length: usize,
        output: *mut u8,
        output_length: usize,
    ) -> StoreAnswer;
    pub fn jazmotip_capture_restore(
        block: *const u8,
        block_length: usize,
        output: *mut u8,
        output_length: usize,
    ) -> StoreAnswer;
    pub fn jazmotip_capture_compare(
        llid: u16,
        first: *const u8,
        first_length: usize,
        second: *const u8,
        second_length: usize,
        output: *mut u8,
        output_length: usize,
    ) -> Comparison;
    pub fn jazmotip_first_loss(script: *const u8, script_length: usize) -> Loss;

    pub fn jazmotip_xgpon_fresh() -> KeyExchange;
    pub fn jazmotip_xgpon_step(exchange: KeyExchange, input: InputRecord) -> Answer;
    pub fn jazmotip_xgpon_sent_under(exchange: KeyExchange) -> ValidKeys;
    pub fn jazmotip_xgpon_received_under(exchange: KeyExchange) -> ValidKeys;
    pub fn jazmotip_xgpon_recommended_starts() -> TimerStarts;
}
