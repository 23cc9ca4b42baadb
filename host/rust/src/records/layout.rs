//! Every record is laid out as the archive has it.

use super::xgpon::*;
use super::*;
use core::mem::{offset_of, size_of};

/// Stops the build where a record's size, or a field's offset, is not the archive's, or a field is not named.
macro_rules! layout {
    ($record:ident, $size:literal, $($field:ident: $offset:literal),+) => {
        const _: () = {
            assert!(size_of::<$record>() == $size);
            $(assert!(offset_of!($record, $field) == $offset);)+
        };
        const _: fn($record) = |$record { $($field: _),+ }| ();
    };
}

layout!(Timer, 24, interval: 0, count: 8, flag: 16);
layout!(Slots, 32, even: 0, odd: 16);
layout!(FirstSend, 16, noted: 0, at: 8);
layout!(Channels, 16, zero: 0, one: 8);
layout!(Identity, 24, mac: 0, llids: 8, count: 16);
layout!(UnitKeys, 80, timer: 0, active: 24, offered: 28, slots: 32, first: 64);
layout!(Confirmation, 8, confirmed: 0, acknowledged: 4);
layout!(UnitClock, 32, trip: 0, captured: 8, tick: 16, sent: 24, acknowledged: 25);
layout!(Unit, 144, identity: 0, keys: 24, confirmation: 104, clock: 112);
layout!(Shared, 40, mac: 0, tick: 8, clock: 16, channels: 24);
layout!(Members, 17, places: 0, marks: 8, count: 16);
layout!(Group, 104, keys: 0, members: 80, llid: 98);
layout!(Olt, 4024, shared: 0, count: 40, units: 48, groupcount: 2352, groups: 2360);
layout!(OnuKeys, 40, active: 0, held: 4, slots: 5);
layout!(OnuClock, 24, synced: 0, time: 8, rx: 16);
layout!(Travel, 24, changes: 0, spent: 8, bar: 16);
layout!(Joined, 44, keys: 0, kept: 40, llid: 42);
layout!(
    Onu, 344, identity: 0, oltmac: 24, tick: 32, clock: 40, keys: 64, first: 104, travel: 120, channels: 144, joinedcount: 160,
    joined: 164
);
layout!(Stamps, 16, rx: 0, tx: 8);
layout!(KeyMessage, 24, llid: 0, number: 4, key: 8);
layout!(Acknowledgement, 8, kind: 0, named: 1, unit: 2, number: 4);
layout!(Roster, 18, llids: 0, count: 16);
layout!(Header, 8, channel: 0, llid: 2, encenabled: 4, enckey: 5, epam: 6);
layout!(OltAnswer, 4032, number: 0, olt: 8);
layout!(ClockSent, 4048, number: 0, olt: 8, message: 4032);
layout!(KeySent, 4056, number: 0, olt: 8, message: 4032);
layout!(OltSent, 4056, number: 0, olt: 8, header: 4032, count: 4040, runs: 4048);
layout!(OltReceived, 4048, number: 0, olt: 8, count: 4032, runs: 4040);
layout!(OnuAnswer, 352, number: 0, onu: 8);
layout!(OnuAcknowledged, 360, number: 0, onu: 8, acknowledgement: 352);
layout!(OnuSent, 376, number: 0, onu: 8, header: 352, count: 360, runs: 368);
layout!(OnuReceived, 368, number: 0, onu: 8, count: 352, runs: 360);
layout!(Nonce, 24, channel: 0, mac: 8, clock: 16);
layout!(RoundKeys, 176, octets: 0);
layout!(PayloadAnswer, 24, number: 0, count: 8, runs: 16);
layout!(BlockDirectory, 16, number: 0, pair: 2, records: 8);
layout!(BlockVerdict, 16, number: 0, encenabled: 1, enckey: 2, pair: 4, clock: 8);
layout!(BlockPart, 24, number: 0, pair: 2, offset: 8, length: 16);
layout!(BlockAnswer, 24, number: 0, expansions: 1, pair: 2, count: 8, runs: 16);
layout!(BlockNearAnswer, 32, answer: 0, smallest: 24, largest: 25);
layout!(BlockNearVerdicts, 24, directory: 0, smallest: 16, largest: 17);
layout!(Caller, 3, sets: 0, users: 1, user: 2);
layout!(StoreAnswer, 4, number: 0, pair: 2);
layout!(Comparison, 8, number: 0, block: 1, pair: 2, entries: 4, total: 6);
layout!(Loss, 16, number: 0, step: 8);
layout!(KeyExchange, 3, state: 0, oldkey: 1, newkey: 2);
layout!(InputRecord, 2, kind: 0, index: 1);
layout!(KeyControl, 2, kind: 0, index: 1);
layout!(Timers, 3, tk1: 0, tk2: 1, tk3: 2);
layout!(Answer, 12, number: 0, exchange: 1, message: 4, starts: 6, stops: 9);
layout!(ValidKeys, 3, number: 0, oldkey: 1, newkey: 2);
layout!(TimerStarts, 12, tk1: 0, tk2: 4, tk3: 8);
