//! The bench values of document 01 that the calls of both ends show (P2 to P11), and the boundaries beside them.

use jazmotip::{calls, Identity, Olt, Onu, Refusal, Stamps, Work, CLOCK_TURN, MAX_EQS, MAX_TICK, MAX_TIME_CHANGE, SECOND};

const MAC: u64 = 0x020000000001;

fn unit() -> Identity {
    Identity::new(0x020000000002, &[5, 6])
}

/// An OLT with one unit, at a clock.
fn olt(clock: u64, trip: u64, interval: u64) -> Olt {
    let mut olt = Olt::fresh(MAC, clock).expect("fresh");
    olt.register(unit(), trip, interval).expect("registered");
    olt
}

/// Both ends with delays 0, under key 1, which the unit has not used yet.
fn ends_under_key_1() -> (Olt, Onu) {
    let mut olt = olt(0x41, 0, 1);
    let mut onu = Onu::fresh(unit(), MAC, 0x41).expect("fresh");
    olt.capture(5).expect("captured");
    let message = olt.clock_send(5).expect("sent");
    olt.acknowledge(5, onu.clock_message(message).expect("set")).expect("acknowledged");
    let message = olt.offer(5, &[1; 16]).expect("offered");
    olt.acknowledge(5, onu.key_message(message).expect("taken")).expect("acknowledged");
    olt.advance(100).expect("advanced");
    onu.advance(100).expect("advanced");
    let sent = olt.send(5, 0x00, &[], &mut []).expect("sent");
    onu.receive(sent.header, &[], &mut []).expect("received");
    (olt, onu)
}

#[test]
fn p2_to_p4_stamps_and_the_raise() {
    let mut head = olt(0xFFFF_FFFF_FFF0, 32, 10);
    head.capture(5).expect("captured");
    assert_eq!(head.clock_send(6), Ok(Stamps { rx: 0xFFFF_FFFF_FFF0, tx: 0x10 }));
    let raised = |time, message| {
        let mut onu = Onu::fresh(unit(), MAC, time).expect("fresh");
        onu.clock_message(message).map(|_| Stamps { rx: onu.clock.rx, tx: onu.clock.time })
    };
    let message = Stamps { rx: 0xFFFF_FFFF_FFF0, tx: 0x10 };
    assert_eq!(raised(0x15, message), Ok(Stamps { rx: 0xFFFF_FFFF_FFF5, tx: 0x15 }));
    let message = Stamps { rx: 0xFFFF_FFFF, tx: 0xFFFF_FFFF };
    assert_eq!(raised(1, message), Ok(Stamps { rx: 0x1_0000_0001, tx: 0x1_0000_0001 }));
    assert_eq!(raised(1, Stamps { rx: CLOCK_TURN, tx: 0 }), Err(Refusal::OutOfRange));
    assert_eq!(raised(1, Stamps { rx: 0, tx: CLOCK_TURN }), Err(Refusal::OutOfRange));
}

#[test]
fn p5_to_p7_the_timer() {
    for (n, flag, count) in [(3, 1, 0), (2, 0, 9), (25, 1, 2)] {
        let mut head = olt(0, 0, 10);
        head.units[0].keys.timer.count = 7;
        head.advance(n).expect("advanced");
        let timer = head.units[0].keys.timer;
        assert_eq!((timer.flag, timer.count), (flag, count), "advance {n}");
    }
}

#[test]
fn p8_and_p9_the_channel() {
    let (payload, mut output) = ([0; 36], [0; 36]);
    let mut head = olt(0, 0, 10);
    head.advance(50).expect("advanced");
    head.send(5, 0x00, &payload, &mut output).expect("sent");
    head.send(5, 0x01, &[], &mut []).expect("the other channel is free");
    head.advance(4).expect("advanced");
    assert_eq!(head.send(5, 0x00, &payload, &mut output), Err(Refusal::ChannelTaken));
    head.advance(1).expect("advanced");
    head.send(5, 0x00, &payload, &mut output).expect("sent");
}

#[test]
fn p10_and_p11_the_age_of_a_key() {
    let (mut head, mut unit) = ends_under_key_1();
    assert_eq!(head.units[0].keys.first.at, 100);
    unit.send(5, 0x80, &[], &mut []).expect("sent");
    head.advance((1 << 48) - 1).expect("advanced");
    unit.advance((1 << 48) - 1).expect("advanced");
    head.send(5, 0x00, &[], &mut []).expect("sent");
    unit.send(5, 0x80, &[], &mut []).expect("sent");
    head.advance(1).expect("advanced");
    unit.advance(1).expect("advanced");
    assert_eq!(head.send(5, 0x00, &[], &mut []), Err(Refusal::KeyTooOld));
    assert_eq!(unit.send(5, 0x80, &[], &mut []), Err(Refusal::KeyTooOld));
}

#[test]
fn the_last_tick() {
    let (mut head, mut unit) = ends_under_key_1();
    assert_eq!(head.advance(MAX_TICK - 99), Err(Refusal::AtEnd));
    assert_eq!(unit.advance(u64::MAX), Err(Refusal::AtEnd));
    head.advance(MAX_TICK - 100).expect("the last tick is reached");
    unit.advance(MAX_TICK - 100).expect("the last tick is reached");
    head.advance(0).expect("no tick more");
    assert_eq!(head.advance(1), Err(Refusal::AtEnd));
    assert_eq!(head.shared.clock, (0x41 + MAX_TICK) % CLOCK_TURN);
    assert_eq!((unit.clock.time, unit.clock.rx), (head.shared.clock, head.shared.clock));
}

#[test]
fn the_age_of_a_capture() {
    let mut head = olt(7, 3, 10);
    assert_eq!(head.clock_send(5), Err(Refusal::NothingOutstanding));
    head.capture(5).expect("captured");
    head.advance(SECOND).expect("advanced");
    assert_eq!(head.clock_send(5), Ok(Stamps { rx: 7, tx: 10 }));
    head.advance(1).expect("advanced");
    assert_eq!(head.clock_send(5), Err(Refusal::CaptureTooOld));
    assert_eq!(head.clock_send(5), Err(Refusal::CaptureTooOld));
}

/// Both ends get a path whose delay up is 40 ticks more, and then the first again, which takes LocalTime back: the unit waits for
/// the end of what it sealed in between.
#[test]
fn a_path_there_and_back() {
    let (mut head, mut unit) = ends_under_key_1();
    let (payload, mut output) = ([0; 450], [0; 450]);
    let time = unit.clock.time;
    assert_eq!(head.measure(5, 1_000_001), Err(Refusal::OutOfRange));
    assert_eq!(head.measure(7, 80), Err(Refusal::UnknownLlid));
    assert_eq!(unit.new_time(time + MAX_TIME_CHANGE + 1), Err(Refusal::OutOfRange));
    for (trip, ahead) in [(40, 40), (0, 0)] {
        head.measure(6, trip).expect("measured");
        unit.new_time(time + ahead).expect("timed");
        assert_eq!(unit.tx_travel(), 100 + ahead + (1 << 61));
        assert_eq!(head.clock_send(5), Err(Refusal::NothingOutstanding));
        assert_eq!(head.send(5, 0x01, &[], &mut []), Err(Refusal::ClockNotSet));
        assert_eq!(unit.send(5, 0x80, &[], &mut []), Err(Refusal::ClockNotSet));
        head.capture(5).expect("captured");
        let message = head.clock_send(5).expect("sent");
        let set = unit.clock_message(message).expect("set");
        assert_eq!(unit.clock.time, time + ahead);
        head.acknowledge(5, set).expect("acknowledged");
        if ahead == 40 {
            unit.send(5, 0x80, &payload, &mut output).expect("nothing was sealed before");
            unit.send(6, 0x81, &[], &mut []).expect("the other channel is free");
        }
    }
    assert_eq!((unit.travel.changes, unit.travel.bar), (0, 191 + (1 << 61)));
    unit.advance(90).expect("advanced");
    for channel in [0x80, 0x81] {
        assert_eq!(unit.send(5, channel, &[], &mut []), Err(Refusal::ChannelTaken));
    }
    unit.advance(1).expect("advanced");
    unit.send(5, 0x80, &payload, &mut output).expect("sent");
    unit.send(5, 0x81, &[], &mut []).expect("what is sealed since the change holds nothing back");
}

/// The largest envelope at both ends: sealed at the OLT, opened at the unit, and its channel taken for all its ticks.
#[test]
fn the_largest_envelope_on_the_line() {
    let (mut head, mut unit) = ends_under_key_1();
    let mut random = crate::random::Random::new(1);
    let payload = random.payload(MAX_EQS + 1);
    let largest = &payload[..9 * MAX_EQS];
    let mut sealed = vec![0; payload.len()];
    assert_eq!(head.send(5, 0x01, &payload, &mut sealed), Err(Refusal::BadLength));
    assert!(sealed.iter().all(|&octet| octet == 0));
    sealed.truncate(largest.len());
    let sent = head.send(5, 0x01, largest, &mut sealed).expect("sent");
    assert!(sealed != largest);
    let mut opened = vec![0; largest.len()];
    assert_eq!(unit.receive(sent.header, &sealed, &mut opened), Ok(Work { count: sent.count, runs: sent.runs }));
    assert!(opened == largest);
    assert_eq!(sent.count, calls::count(largest));
    head.advance(MAX_EQS as u64).expect("advanced");
    assert_eq!(head.send(5, 0x01, &[], &mut []), Err(Refusal::ChannelTaken));
    head.advance(1).expect("advanced");
    head.send(5, 0x01, &[], &mut []).expect("sent");
}
