//! Lent ends with a field changed (01: "Ahead of each list comes 1 for a lent end with a field outside its range ..."): the engine
//! refuses with 1 exactly those that the reference has no reading of, and agrees on the others.

use crate::pairs::Pair;
use crate::random::{cases, Random};
use crate::reference::olt::Olt;
use crate::reference::onu::Onu;
use crate::tally::Tally;
use jazmotip::{Group, Identity, Unit};

/// Values at and about the bounds of the papers.
const BOUNDS: [u64; 25] = [
    0,
    1,
    2,
    3,
    4,
    5,
    16,
    17,
    255,
    1_000_000,
    1_000_001,
    (1 << 32) - 1,
    1 << 32,
    1 << 47,
    (1 << 47) + 1,
    (1 << 48) - 1,
    1 << 48,
    1 << 61,
    (1 << 61) + 1,
    -(1_i64 << 61) as u64,
    (-(1_i64 << 61) - 1) as u64,
    1 << 62,
    (1 << 62) + 1,
    (1 << 62) + 4_194_304,
    (1 << 62) + 4_194_305,
];

/// One field of an OLT or of a unit of it, by number; `None` past the last.
fn set_olt_field(olt: &mut jazmotip::Olt, place: usize, field: usize, value: u64) -> Option<()> {
    let unit: &mut Unit = &mut olt.units[place];
    match field {
        0 => olt.shared.mac = value,
        1 => olt.shared.tick = value,
        2 => olt.shared.clock = value,
        3 => olt.shared.channels.zero = value,
        4 => olt.shared.channels.one = value,
        5 => olt.count = value as u8,
        6 => unit.identity.mac = value,
        7 => unit.identity.count = value as u8,
        8..=11 => unit.identity.llids[field - 8] = value as u16,
        12 => unit.keys.timer.interval = value,
        13 => unit.keys.timer.count = value,
        14 => unit.keys.timer.flag = value as u8,
        15 => unit.keys.active = value as u32,
        16 => unit.keys.offered = value as u32,
        17 => unit.keys.slots.even[0] = value as u8,
        18 => unit.keys.slots.odd[0] = value as u8,
        19 => unit.keys.first.noted = value as u8,
        20 => unit.keys.first.at = value,
        21 => unit.confirmation.confirmed = value as u32,
        22 => unit.confirmation.acknowledged = value as u8,
        23 => unit.clock.trip = value,
        24 => unit.clock.captured = value as u8,
        25 => unit.clock.tick = value,
        26 => unit.clock.sent = value as u8,
        27 => unit.clock.acknowledged = value as u8,
        28 => olt.groupcount = value as u8,
        _ => return set_group_field(&mut olt.groups[place], field - 29, value),
    }
    Some(())
}

/// One field of a group, by number; `None` past the last.
fn set_group_field(group: &mut Group, field: usize, value: u64) -> Option<()> {
    match field {
        0 => group.llid = value as u16,
        1 => group.members.count = value as u8,
        2..=9 => group.members.places[field - 2] = value as u8,
        10..=17 => group.members.marks[field - 10] = value as u8,
        18 => group.keys.timer.interval = value,
        19 => group.keys.timer.count = value,
        20 => group.keys.timer.flag = value as u8,
        21 => group.keys.active = value as u32,
        22 => group.keys.offered = value as u32,
        23 => group.keys.slots.even[0] = value as u8,
        24 => group.keys.slots.odd[0] = value as u8,
        25 => group.keys.first.noted = value as u8,
        26 => group.keys.first.at = value,
        _ => return None,
    }
    Some(())
}

fn set_onu_field(onu: &mut jazmotip::Onu, place: usize, field: usize, value: u64) -> Option<()> {
    let joined = &mut onu.joined[place];
    match field {
        0 => onu.identity.mac = value,
        1 => onu.identity.count = value as u8,
        2..=5 => onu.identity.llids[field - 2] = value as u16,
        6 => onu.oltmac = value,
        7 => onu.tick = value,
        8 => onu.clock.synced = value as u8,
        9 => onu.clock.time = value,
        10 => onu.clock.rx = value,
        11 => onu.keys.active = value as u32,
        12 => onu.keys.held = value as u8,
        13 => onu.keys.slots.even[0] = value as u8,
        14 => onu.keys.slots.odd[0] = value as u8,
        15 => onu.first.noted = value as u8,
        16 => onu.first.at = value,
        17 => onu.channels.zero = value,
        18 => onu.channels.one = value,
        19 => onu.joinedcount = value as u8,
        20 => joined.llid = value as u16,
        21 => joined.kept = value as u8,
        22 => joined.keys.active = value as u32,
        23 => joined.keys.held = value as u8,
        24 => joined.keys.slots.even[0] = value as u8,
        25 => joined.keys.slots.odd[0] = value as u8,
        26 => onu.travel.changes = value as i64,
        27 => onu.travel.spent = value,
        28 => onu.travel.bar = value,
        _ => return None,
    }
    Some(())
}

const OLT_FIELDS: u64 = 56;
const ONU_FIELDS: u64 = 29;

/// A value that may be bad: a bound, one beside the tick, or any.
fn value(random: &mut Random, tick: u64) -> u64 {
    match random.below(4) {
        0 => (tick + random.below(3)).wrapping_sub(1),
        1 => random.next(),
        _ => random.pick(&BOUNDS),
    }
}

/// Changes an octet of a record, whatever it belongs to.
fn damage_octet<T: Copy>(random: &mut Random, record: &mut T) {
    let place = random.below(size_of::<T>() as u64) as usize;
    let octet = random.pick(&[0, 1, 2, 0x7F, 0xFF, random.clone().next() as u8]);
    // every field is a number or octets, so any octet may be written
    unsafe { std::ptr::from_mut(record).cast::<u8>().add(place).write(octet) };
}

pub fn damage_olt(random: &mut Random, olt: &mut jazmotip::Olt) {
    let place = random.below(u64::from(olt.count).max(1)) as usize;
    let tick = olt.shared.tick;
    match random.below(5) {
        0 => damage_octet(random, olt),
        4 => {
            // a group's numbers beside each other, and a member twice
            let group = &mut olt.groups[random.below(2) as usize];
            group.keys.active = random.pick(&[0, 1, 2, 5, u32::MAX - 1, u32::MAX]);
            group.keys.offered =
                (u64::from(group.keys.active) + random.below(4)).saturating_sub(1).min(u64::from(u32::MAX)) as u32;
            group.members.places[1] = random.below(3) as u8;
        }
        1 => {
            // numbers beside each other, allowed or not
            let unit = &mut olt.units[place];
            let number = random.pick(&[0, 1, 2, 5, u32::MAX - 1]);
            unit.confirmation.confirmed = number;
            unit.keys.active = (u64::from(number) + random.below(3)).min(u64::from(u32::MAX)) as u32;
            unit.keys.offered =
                (u64::from(unit.keys.active) + random.below(3)).saturating_sub(1).min(u64::from(u32::MAX)) as u32;
        }
        _ => {
            let (field, value) = (random.below(OLT_FIELDS) as usize, value(random, tick));
            set_olt_field(olt, place, field, value);
        }
    }
}

pub fn damage_onu(random: &mut Random, onu: &mut jazmotip::Onu) {
    let tick = onu.tick;
    match random.below(5) {
        0 => damage_octet(random, onu),
        4 => {
            let joined = &mut onu.joined[random.below(2) as usize];
            joined.keys.active = random.pick(&[0, 1, 2, u32::MAX - 1, u32::MAX]);
            (joined.keys.held, joined.kept) = (random.below(2) as u8, random.below(2) as u8);
        }
        1 => {
            onu.keys.active = random.pick(&[0, 1, 2, u32::MAX - 1, u32::MAX]);
            onu.keys.held = random.below(2) as u8;
        }
        _ => {
            let (field, value) = (random.below(ONU_FIELDS) as usize, value(random, tick));
            set_onu_field(onu, random.below(4) as usize, field, value);
        }
    }
}

/// An OLT in the middle of things: a unit with a key offered, one that is fresh, a capture, a group of one under key 1 with key 2
/// offered and acknowledged, and a fresh group of both.
fn some_olt() -> jazmotip::Olt {
    let mut olt = jazmotip::Olt::fresh(7, 100).expect("fresh");
    olt.register(Identity::new(1, &[5, 6, 7]), 10, 1000).expect("registered");
    olt.register(Identity::new(2, &[8]), 0, 1).expect("registered");
    olt.advance(5000).expect("advanced");
    olt.capture(5).expect("captured");
    olt.clock_send(5).expect("sent");
    olt.acknowledge(5, jazmotip::Acknowledgement { kind: 1, ..Default::default() }).expect("acknowledged");
    olt.offer(5, &[1; 16]).expect("offered");
    olt.register_group(20, 1000, &[6]).expect("registered");
    olt.register_group(21, 7, &[8, 7]).expect("registered");
    olt.offer(20, &[2; 16]).expect("offered");
    olt.advance(1000).expect("advanced");
    olt.send(20, 0x00, &[], &mut []).expect("sent");
    olt.offer(20, &[3; 16]).expect("offered");
    olt.acknowledge(20, jazmotip::Acknowledgement { kind: 2, named: 1, unit: 7, number: 2 }).expect("acknowledged");
    olt
}

fn some_onu() -> jazmotip::Onu {
    let mut onu = jazmotip::Onu::fresh(Identity::new(1, &[5, 6, 7]), 7, 100).expect("fresh");
    onu.advance(5000).expect("advanced");
    onu.clock_message(jazmotip::Stamps { rx: 5000, tx: 5010 }).expect("set");
    onu.key_message(jazmotip::KeyMessage { llid: 5, number: 1, key: [1; 16] }).expect("taken");
    for llid in [20, 21] {
        onu.join(llid).expect("joined");
    }
    for number in [1, 2] {
        onu.key_message(jazmotip::KeyMessage { llid: 20, number, key: [number as u8; 16] }).expect("taken");
    }
    onu
}

#[test]
fn every_field_at_every_bound() {
    let mut tally = Tally::default();
    for start in [some_olt(), jazmotip::Olt::default()] {
        for field in 0..OLT_FIELDS as usize {
            for place in [0, 1, 2, 15] {
                for value in BOUNDS.into_iter().chain([5999, 6000, 6001, 6, 8, 20, 21, 999, 1000, u64::MAX]) {
                    let mut olt = start;
                    set_olt_field(&mut olt, place, field, value).expect("a field");
                    let _ = Pair::<Olt>::lent(olt).advance(&mut tally, 0);
                    let _ = Pair::<Olt>::lent(olt).offer(&mut tally, 5, &[2; 16]);
                    let _ = Pair::<Olt>::lent(olt).capture(&mut tally, 8);
                    let _ = Pair::<Olt>::lent(olt).retry(&mut tally, 20);
                }
            }
        }
    }
    for start in [some_onu(), jazmotip::Onu::default()] {
        for field in 0..ONU_FIELDS as usize {
            for value in BOUNDS.into_iter().chain([4999, 5000, 5001, 6, 20, 21, u64::MAX]) {
                for place in 0..4 {
                    let mut onu = start;
                    set_onu_field(&mut onu, place, field, value).expect("a field");
                    let _ = Pair::<Onu>::lent(onu).advance(&mut tally, 0);
                    for llid in [5, 20] {
                        let message = jazmotip::KeyMessage { llid, number: 1, key: [1; 16] };
                        let _ = Pair::<Onu>::lent(onu).key_message(&mut tally, message);
                    }
                    let _ = Pair::<Onu>::lent(onu).join(&mut tally, 22);
                }
            }
        }
    }
    assert_eq!(set_olt_field(&mut some_olt(), 0, OLT_FIELDS as usize, 0), None);
    assert_eq!(set_onu_field(&mut some_onu(), 0, ONU_FIELDS as usize, 0), None);
    for number in [0, 1] {
        tally.gave("olt_advance", number, 501);
        tally.gave("onu_advance", number, 101);
    }
}

/// What a lent end's groups are refused for, by name (02, C-14): those causes of 1 came, and no others.
#[test]
fn causes_of_1_in_groups() {
    type Change<E> = fn(&mut E);
    let broken_olts: [(&str, Change<jazmotip::Olt>); 14] = [
        ("no member", |olt| olt.groups[0].members.count = 0),
        ("nine members", |olt| olt.groups[0].members.count = 9),
        ("a member that names no unit", |olt| olt.groups[0].members.places[0] = 2),
        ("a member twice", |olt| olt.groups[1].members.places = [1; 8]),
        ("a mark above 1", |olt| olt.groups[0].members.marks[0] = 2),
        ("seventeen places", |olt| olt.groupcount = 15),
        ("a group's LLID that is a unit's", |olt| olt.groups[1].llid = 6),
        ("a group's LLID that is another's", |olt| olt.groups[1].llid = 20),
        ("an interval of 0", |olt| olt.groups[0].keys.timer.interval = 0),
        ("a count that is the interval", |olt| olt.groups[0].keys.timer.count = 1000),
        ("a timer's flag above 1", |olt| olt.groups[0].keys.timer.flag = 2),
        ("a first send after the tick", |olt| olt.groups[0].keys.first.at = 6001),
        ("O = A + 2", |olt| olt.groups[0].keys.offered = 3),
        ("O = A - 1", |olt| olt.groups[0].keys.offered = 0),
    ];
    let sound_olts: [(&str, Change<jazmotip::Olt>); 6] = [
        ("sixteen places", |olt| {
            let filled = |place: usize| Group { llid: 100 + place as u16, ..olt.groups[0] };
            olt.groups = std::array::from_fn(|place| if place < 2 { olt.groups[place] } else { filled(place) });
            olt.groupcount = 14;
        }),
        ("a place past the members' count", |olt| olt.groups[0].members.places[1] = 255),
        ("a mark past the members' count", |olt| olt.groups[0].members.marks[1] = 255),
        ("a group past the count", |olt| olt.groups[2].keys.timer.flag = 9),
        ("O = A", |olt| olt.groups[0].keys.offered = 1),
        ("numbers at their end", |olt| (olt.groups[0].keys.active, olt.groups[0].keys.offered) = (u32::MAX, u32::MAX)),
    ];
    let broken_onus: [(&str, Change<jazmotip::Onu>); 7] = [
        ("five groups", |onu| onu.joinedcount = 5),
        ("a joined LLID that is an own one", |onu| onu.joined[1].llid = 7),
        ("a joined LLID that is another's", |onu| onu.joined[1].llid = 20),
        ("key a held with a = 0", |onu| onu.joined[1].kept = 1),
        ("key a + 1 held at a = 2^32 - 1", |onu| onu.joined[0].keys.active = u32::MAX),
        ("held above 1", |onu| onu.joined[1].keys.held = 2),
        ("kept above 1", |onu| onu.joined[0].kept = 2),
    ];
    let sound_onus: [(&str, Change<jazmotip::Onu>); 3] = [
        ("four groups", |onu| (onu.joined[2].llid, onu.joined[3].llid, onu.joinedcount) = (22, 23, 4)),
        ("a group past the count", |onu| onu.joined[2].kept = 9),
        ("nothing held at a = 2^32 - 1", |onu| (onu.joined[0].keys.active, onu.joined[0].keys.held) = (u32::MAX, 0)),
    ];
    let mut tally = Tally::default();
    for (expected, changes) in [(Err(1), &broken_olts[..]), (Ok(()), &sound_olts[..])] {
        for (name, change) in changes {
            let mut olt = some_olt();
            change(&mut olt);
            assert_eq!(Pair::<Olt>::lent(olt).advance(&mut tally, 0), expected, "{name}");
            assert_eq!(Pair::<Olt>::lent(olt).capture(&mut tally, 5), expected, "{name}");
        }
    }
    for (expected, changes) in [(Err(1), &broken_onus[..]), (Ok(()), &sound_onus[..])] {
        for (name, change) in changes {
            let mut onu = some_onu();
            change(&mut onu);
            assert_eq!(Pair::<Onu>::lent(onu).advance(&mut tally, 0), expected, "{name}");
        }
    }
}

/// An invalid end is refused with 1 ahead of everything else that is wrong.
#[test]
fn an_invalid_end_comes_first() {
    let (mut tally, mut random) = (Tally::default(), Random::new(1));
    let mut olt = some_olt();
    olt.shared.clock = 1 << 48;
    let header = jazmotip::Header { channel: 0, llid: 99, ..Default::default() };
    let mut end = Pair::<Olt>::lent(olt);
    assert_eq!(end.send(&mut tally, &mut random, 99, 9, &[0; 10], 3), Err(1));
    assert_eq!(end.receive(&mut tally, &mut random, header, &[0; 10], 3), Err(1));
    assert_eq!(end.advance(&mut tally, u64::MAX), Err(1));
    assert_eq!(end.offer(&mut tally, 99, &[0; 16]), Err(1));
    let mut onu = some_onu();
    onu.first.noted = 2;
    let mut end = Pair::<Onu>::lent(onu);
    assert_eq!(end.send(&mut tally, &mut random, 99, 9, &[0; 10], 3), Err(1));
    assert_eq!(end.receive(&mut tally, &mut random, header, &[0; 10], 3), Err(1));
    assert_eq!(end.advance(&mut tally, u64::MAX), Err(1));
}

#[test]
fn fresh_ends() {
    let mut tally = Tally::default();
    cases(3000, |random| {
        let value = |random: &mut Random| if random.once_in(2) { random.pick(&BOUNDS) } else { random.mac() };
        let (mac, clock, time) = (value(random), value(random), value(random));
        let _ = Pair::<Olt>::fresh(&mut tally, mac, clock);
        let identity = Identity {
            mac: value(random),
            llids: std::array::from_fn(|_| random.below(12) as u16),
            count: random.below(6) as u8,
        };
        let _ = Pair::<Onu>::fresh(&mut tally, identity, mac, time % (1 << 33));
    });
    for (call, number) in [("olt_fresh", 0), ("olt_fresh", 1), ("onu_fresh", 0), ("onu_fresh", 1), ("onu_fresh", 3)] {
        tally.gave(call, number, 1);
    }
}
