//! An end twice: the engine's record and the reference. Each call goes to both, and number, record, message, header, count, runs and
//! output are compared.

use crate::random::{Lent, Random};
use crate::reference::olt::Olt;
use crate::reference::onu::Onu;
use crate::reference::records::End;
use crate::reference::{Envelope, Identity, Key, Passed, Reply};
use crate::tally::Tally;
use jazmotip::{calls, Acknowledgement, Header, KeyMessage, Roster, Stamps};

pub struct Pair<E: End> {
    pub record: E::Record,
    /// Missing where the record is invalid.
    pub model: Option<E>,
    /// Whether the record came from calls alone. Another may hold anything in places that are not in use, and is compared by what
    /// it is read as.
    exact: bool,
}

impl<E: End> Pair<E> {
    /// A record as it is found.
    pub fn lent(record: E::Record) -> Pair<E> {
        Pair { record, model: E::lent(&record), exact: false }
    }

    /// The reference's end, and the record that it gives.
    pub fn of(model: E) -> Pair<E> {
        Pair { record: model.record(), model: Some(model), exact: true }
    }

    /// A fresh end; one that is refused has zeros for a record.
    #[track_caller]
    fn made(tally: &mut Tally, call: &'static str, number: u8, record: E::Record, expected: Reply<E>) -> Option<Pair<E>> {
        tally.note(call, number);
        match expected {
            Ok(model) => {
                assert_eq!((number, record), (0, model.record()));
                Some(Pair::of(model))
            }
            Err(refused) => {
                assert_eq!((number, record), (refused, E::Record::default()));
                None
            }
        }
    }

    /// The reference of an end that calls made: it is valid.
    pub fn sound(&self) -> &E {
        self.model.as_ref().expect("a valid end")
    }

    /// Whether a call is refused, tried on a copy of the reference.
    pub fn refuses<T>(&self, call: impl FnOnce(&mut E) -> Reply<T>) -> bool {
        call(&mut self.sound().clone()).is_err()
    }

    fn judge<T>(&mut self, call: impl FnOnce(&mut E) -> Reply<T>) -> Reply<T> {
        self.model.as_mut().map_or(Err(1), call)
    }

    #[track_caller]
    fn settle<T>(&mut self, tally: &mut Tally, call: &'static str, number: u8, after: E::Record, expected: &Reply<T>) {
        tally.note(call, number);
        assert_eq!(number, expected.as_ref().err().copied().unwrap_or(0), "number of {call}");
        if number != 0 {
            assert!(after == self.record, "{call}, refused {number}, changed the end\n{:?}\n{after:?}", self.record);
        }
        match &self.model {
            Some(model) if self.exact => {
                assert!(after == model.record(), "{call}: ends differ\n{after:?}\n{:?}", model.record());
            }
            model => assert!(E::lent(&after) == *model, "{call}: ends differ\n{after:?}\n{model:?}"),
        }
        self.record = after;
    }
}

#[track_caller]
fn check_sent(lent: &Lent, header: Header, count: u64, runs: u64, expected: &Reply<Envelope>) {
    let (octets, wanted) = match expected {
        Ok(envelope) => (Some(&envelope.octets[..]), (envelope.header, envelope.count, envelope.runs)),
        Err(_) => (None, (Header::default(), 0, 0)),
    };
    lent.check(octets);
    assert_eq!((header, count, runs), wanted);
}

#[track_caller]
fn check_received(lent: &Lent, count: u64, runs: u64, expected: &Reply<Passed>) {
    lent.check(expected.as_ref().ok().map(|opened| &opened.octets[..]));
    assert_eq!((count, runs), expected.as_ref().map_or((0, 0), |opened| (opened.count, opened.runs)));
}

impl Pair<Olt> {
    pub fn fresh(tally: &mut Tally, mac: u64, clock: u64) -> Option<Pair<Olt>> {
        let answer = calls::olt_fresh(mac, clock);
        Pair::made(tally, "olt_fresh", answer.number, answer.olt, Olt::fresh(mac, clock))
    }

    pub fn register(&mut self, tally: &mut Tally, identity: jazmotip::Identity, trip: u64, interval: u64) -> Reply<()> {
        let answer = calls::olt_register(self.record, identity, trip, interval);
        let expected = self.judge(|olt| olt.register(Identity::of(&identity), trip, interval));
        self.settle(tally, "olt_register", answer.number, answer.olt, &expected);
        expected
    }

    pub fn register_group(&mut self, tally: &mut Tally, llid: u16, interval: u64, roster: Roster) -> Reply<()> {
        let answer = calls::olt_register_group(self.record, llid, interval, roster);
        // a count above eight is that many members, whoever they are
        let named: Vec<u16> = (0..usize::from(roster.count)).map(|j| roster.llids.get(j).copied().unwrap_or(0)).collect();
        let expected = self.judge(|olt| olt.register_group(llid, interval, &named));
        self.settle(tally, "olt_register_group", answer.number, answer.olt, &expected);
        expected
    }

    pub fn capture(&mut self, tally: &mut Tally, llid: u16) -> Reply<()> {
        let answer = calls::olt_capture(self.record, llid);
        let expected = self.judge(|olt| olt.capture(llid));
        self.settle(tally, "olt_capture", answer.number, answer.olt, &expected);
        expected
    }

    pub fn measure(&mut self, tally: &mut Tally, llid: u16, trip: u64) -> Reply<()> {
        let answer = calls::olt_measure(self.record, llid, trip);
        let expected = self.judge(|olt| olt.measure(llid, trip));
        self.settle(tally, "olt_measure", answer.number, answer.olt, &expected);
        expected
    }

    pub fn clock_send(&mut self, tally: &mut Tally, llid: u16) -> Reply<Stamps> {
        let answer = calls::olt_clock_send(self.record, llid);
        let expected = self.judge(|olt| olt.clock_send(llid));
        assert_eq!(answer.message, expected.unwrap_or_default());
        self.settle(tally, "olt_clock_send", answer.number, answer.olt, &expected);
        expected
    }

    pub fn offer(&mut self, tally: &mut Tally, llid: u16, key: &Key) -> Reply<KeyMessage> {
        let answer = calls::olt_offer(self.record, llid, key);
        let expected = self.judge(|olt| olt.offer(llid, key));
        assert_eq!(answer.message, expected.unwrap_or_default());
        self.settle(tally, "olt_offer", answer.number, answer.olt, &expected);
        expected
    }

    pub fn retry(&mut self, tally: &mut Tally, llid: u16) -> Reply<KeyMessage> {
        let answer = calls::olt_retry(self.record, llid);
        let expected = self.judge(|olt| olt.retry(llid));
        assert_eq!(answer.message, expected.unwrap_or_default());
        self.settle(tally, "olt_retry", answer.number, answer.olt, &expected);
        expected
    }

    pub fn acknowledge(&mut self, tally: &mut Tally, llid: u16, acknowledgement: Acknowledgement) -> Reply<()> {
        let answer = calls::olt_acknowledge(self.record, llid, acknowledgement);
        let expected = self.judge(|olt| olt.acknowledge(llid, acknowledgement));
        self.settle(tally, "olt_acknowledge", answer.number, answer.olt, &expected);
        expected
    }
}

impl Pair<Onu> {
    pub fn fresh(tally: &mut Tally, identity: jazmotip::Identity, oltmac: u64, time: u64) -> Option<Pair<Onu>> {
        let answer = calls::onu_fresh(identity, oltmac, time);
        let expected = Onu::fresh(Identity::of(&identity), oltmac, time);
        Pair::made(tally, "onu_fresh", answer.number, answer.onu, expected)
    }

    pub fn join(&mut self, tally: &mut Tally, llid: u16) -> Reply<()> {
        let answer = calls::onu_join(self.record, llid);
        let expected = self.judge(|onu| onu.join(llid));
        self.settle(tally, "onu_join", answer.number, answer.onu, &expected);
        expected
    }

    pub fn new_time(&mut self, tally: &mut Tally, time: u64) -> Reply<()> {
        let answer = calls::onu_new_time(self.record, time);
        let expected = self.judge(|onu| onu.new_time(time));
        self.settle(tally, "onu_new_time", answer.number, answer.onu, &expected);
        expected
    }

    pub fn clock_message(&mut self, tally: &mut Tally, message: Stamps) -> Reply<Acknowledgement> {
        let answer = calls::onu_clock_message(self.record, message);
        let expected = self.judge(|onu| onu.clock_message(message));
        assert_eq!(answer.acknowledgement, expected.unwrap_or_default());
        self.settle(tally, "onu_clock_message", answer.number, answer.onu, &expected);
        expected
    }

    pub fn key_message(&mut self, tally: &mut Tally, message: KeyMessage) -> Reply<Acknowledgement> {
        let answer = calls::onu_key_message(self.record, message);
        let expected = self.judge(|onu| onu.key_message(message));
        assert_eq!(answer.acknowledgement, expected.unwrap_or_default());
        self.settle(tally, "onu_key_message", answer.number, answer.onu, &expected);
        expected
    }
}

/// The calls that both ends have.
macro_rules! calls_of_both {
    ($end:ident, $record:ident, $advance:ident, $send:ident, $receive:ident) => {
        impl Pair<$end> {
            pub fn advance(&mut self, tally: &mut Tally, n: u64) -> Reply<()> {
                let mut after = self.record;
                let number = calls::$advance(&mut after, n);
                let expected = self.judge(|end| end.advance(n));
                self.settle(tally, stringify!($advance), number, after, &expected);
                expected
            }

            pub fn send(
                &mut self,
                tally: &mut Tally,
                random: &mut Random,
                llid: u16,
                channel: u8,
                payload: &[u8],
                output: usize,
            ) -> Reply<Envelope> {
                let mut lent = random.lent(output);
                let answer = calls::$send(self.record, llid, channel, payload, lent.part());
                let expected = self.judge(|end| end.send(llid, channel, payload, output));
                check_sent(&lent, answer.header, answer.count, answer.runs, &expected);
                self.settle(tally, stringify!($send), answer.number, answer.$record, &expected);
                expected
            }

            pub fn receive(
                &mut self,
                tally: &mut Tally,
                random: &mut Random,
                header: Header,
                octets: &[u8],
                output: usize,
            ) -> Reply<Passed> {
                let mut lent = random.lent(output);
                let answer = calls::$receive(self.record, header, octets, lent.part());
                let expected = self.judge(|end| end.receive(&header, octets, output));
                check_received(&lent, answer.count, answer.runs, &expected);
                self.settle(tally, stringify!($receive), answer.number, answer.$record, &expected);
                expected
            }
        }
    };
}

calls_of_both!(Olt, olt, olt_advance, olt_send, olt_receive);
calls_of_both!(Onu, onu, onu_advance, onu_send, onu_receive);
