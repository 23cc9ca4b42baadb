//! The OLT's key exchange on an XG-PON line (02, C-21) against a table written from ITU-T G.987.3, 15.5.3.2, its text and its figure.

use crate::random::{cases, Random};
use crate::tally::Tally;
use jazmotip::calls;
use jazmotip::xgpon::{
    Answer, Input, InputRecord, KeyControl, KeyExchange, Keys, Message, Step, TimerStarts, Timers, ValidKeys, TK1_START_MS,
    TK2_START_MS, TK3_START_MS,
};
use jazmotip::Refusal;
use std::collections::BTreeSet;
use std::fmt::Write as _;

/// A row for each input in the order of its kind, then the one for a report that names another index than the awaited one; a column
/// for each of KL0 to KL4. A cell has the next state, the message, and the timers that start and stop, or the refusal.
const MOVES: [[&str; 5]; 10] = [
    /* NewKey */ ["", "KL2 -TK2", "", "", ""],
    /* ExistingKey */ ["", "", "", "KL4 -TK1 -TK3", ""],
    /* TK1 expires */ ["", "KL1 Generate +TK1 +TK2", "KL0", "KL0 -TK3", ""],
    /* TK2 expires */ ["", "KL1 Generate +TK2", "", "KL3 Confirm +TK3", ""],
    /* TK3 expires */ ["", "", "", "KL3 Confirm +TK3", ""],
    /* begin */ ["KL1 Generate +TK1 +TK2", "", "", "", ""],
    /* begin to send */ ["", "", "KL3 Confirm +TK3", "", ""],
    /* rekey */ ["", "", "", "", "KL1 Generate +TK1 +TK2"],
    /* key check */ ["", "", "", "", "KL4 Confirm"],
    /* another index */ ["", "25", "", "25", "25"],
];
const TO_SEND: [&str; 5] = ["", "old", "old new", "new", "new"];
const TO_RECEIVE: [&str; 5] = ["", "old", "old", "old new", "new"];

const REPORTS: [u8; 2] = [1, 2];
const BEGIN: u8 = 6;
const REKEY: u8 = 8;
const ANOTHER_INDEX: u8 = 10;

fn flags(timers: Timers) -> [u8; 3] {
    [timers.tk1, timers.tk2, timers.tk3]
}

fn set(timers: &mut Timers, name: &str) {
    match name {
        "TK1" => timers.tk1 = 1,
        "TK2" => timers.tk2 = 1,
        "TK3" => timers.tk3 = 1,
        _ => panic!("{name} is no timer"),
    }
}

/// The exchange that a move leads to: KL0 has no keys, a beginning takes the first index, a rekey the other of the active one.
fn next(exchange: KeyExchange, kind: u8, state: u8) -> KeyExchange {
    let (oldkey, newkey) = match (state, kind) {
        (0, _) => (0, 0),
        (_, BEGIN) => (0, 1),
        (_, REKEY) => (exchange.newkey, 3 - exchange.newkey),
        _ => (exchange.oldkey, exchange.newkey),
    };
    KeyExchange { state, oldkey, newkey }
}

/// What the table has for an exchange of sound values.
fn expected(exchange: KeyExchange, input: InputRecord) -> Answer {
    let report = REPORTS.contains(&input.kind);
    let row = if report && input.index != exchange.newkey { ANOTHER_INDEX } else { input.kind };
    let mut answer = Answer { exchange, ..Answer::default() };
    for word in MOVES[usize::from(row) - 1][usize::from(exchange.state)].split(' ') {
        match (word, word.split_at(word.len().min(1))) {
            ("", _) => (),
            ("25", _) => answer.number = 25,
            ("Generate", _) => answer.message = KeyControl { kind: 1, index: answer.exchange.newkey },
            ("Confirm", _) => answer.message = KeyControl { kind: 2, index: answer.exchange.newkey },
            (_, ("+", timer)) => set(&mut answer.starts, timer),
            (_, ("-", timer)) => set(&mut answer.stops, timer),
            _ => answer.exchange = next(exchange, input.kind, word[2..].parse().expect("a state")),
        }
    }
    answer
}

fn valid_keys(table: [&str; 5], exchange: KeyExchange) -> ValidKeys {
    let named = |key, index| if table[usize::from(exchange.state)].contains(key) { index } else { 0 };
    ValidKeys { number: 0, oldkey: named("old", exchange.oldkey), newkey: named("new", exchange.newkey) }
}

fn fields(exchange: KeyExchange) -> (u8, u8, u8) {
    (exchange.state, exchange.oldkey, exchange.newkey)
}

/// Every exchange that the table leads to from KL0.
fn reached() -> BTreeSet<(u8, u8, u8)> {
    let mut found = BTreeSet::new();
    let mut left = vec![KeyExchange::default()];
    while let Some(exchange) = left.pop() {
        if found.insert(fields(exchange)) {
            let inputs = (1..=9).flat_map(|kind| [0, 1, 2].map(|index| InputRecord { kind, index }));
            left.extend(inputs.map(|input| expected(exchange, input).exchange));
        }
    }
    found
}

const BOUNDS: [u8; 8] = [0, 1, 2, 3, 4, 5, 254, 255];

fn known(kind: u8) -> bool {
    (1..=9).contains(&kind)
}

fn check_steps(tally: &mut Tally, sound: bool, exchange: KeyExchange) {
    for kind in (0..=11).chain([255]) {
        for index in BOUNDS {
            let input = InputRecord { kind, index };
            let refused = Answer { number: 1, exchange, ..Answer::default() };
            let answer = calls::xgpon_step(exchange, input);
            assert_eq!(
                answer,
                if sound && known(kind) { expected(exchange, input) } else { refused },
                "{exchange:?} {input:?}"
            );
            tally.note("step", answer.number);
        }
    }
}

fn check_keys(sound: bool, exchange: KeyExchange) {
    let refused = ValidKeys { number: 1, ..ValidKeys::default() };
    let keys = |table| if sound { valid_keys(table, exchange) } else { refused };
    assert_eq!(calls::xgpon_sent_under(exchange), keys(TO_SEND), "{exchange:?}");
    assert_eq!(calls::xgpon_received_under(exchange), keys(TO_RECEIVE), "{exchange:?}");
}

#[test]
fn every_state_with_every_input() {
    let (reached, mut tally) = (reached(), Tally::default());
    for (state, oldkey) in BOUNDS.iter().flat_map(|state| BOUNDS.map(|oldkey| (*state, oldkey))) {
        for newkey in BOUNDS {
            let exchange = KeyExchange { state, oldkey, newkey };
            let sound = reached.contains(&fields(exchange));
            check_steps(&mut tally, sound, exchange);
            check_keys(sound, exchange);
        }
    }
    assert_eq!(reached.len(), 13);
    // a report in KL1, KL3 or KL4 that names one of seven other indices; kinds 0, 10, 11 and 255
    tally.gave("step", 25, 9 * 2 * 7);
    tally.gave("step", 1, (512 - 13) * 13 * 8 + 13 * 4 * 8);
    tally.gave("step", 0, 13 * 9 * 8 - 9 * 2 * 7);
}

/// An exchange is refused exactly where no inputs lead to it.
#[test]
fn every_lent_exchange() {
    let reached = reached();
    for number in 0..1 << 24 {
        let [state, oldkey, newkey, _] = u32::to_le_bytes(number);
        let sound = reached.contains(&(state, oldkey, newkey));
        let exchange = KeyExchange { state, oldkey, newkey };
        assert_eq!(calls::xgpon_received_under(exchange).number, u8::from(!sound), "{exchange:?}");
    }
}

/// An input; most reports name the awaited index.
fn input(random: &mut Random, exchange: KeyExchange) -> Input {
    let index = if random.once_in(4) { random.below(256) as u8 } else { exchange.newkey };
    random.pick(&[
        Input::NewKey(index),
        Input::ExistingKey(index),
        Input::Tk1Expires,
        Input::Tk2Expires,
        Input::Tk3Expires,
        Input::Begin,
        Input::BeginToSend,
        Input::Rekey,
        Input::KeyCheck,
    ])
}

/// What a host sees of a run: the timers that run, and the indices whose key was reported since it was last asked for.
#[derive(Default)]
struct Seen {
    running: [bool; 3],
    reported: BTreeSet<u8>,
}

impl Seen {
    fn take(&mut self, input: Input, step: Step) {
        match input {
            Input::Tk1Expires => self.running[0] = false,
            Input::Tk2Expires => self.running[1] = false,
            Input::Tk3Expires => self.running[2] = false,
            Input::NewKey(index) => _ = self.reported.insert(index),
            _ => (),
        }
        if let Some(Message::Generate(index)) = step.message {
            self.reported.remove(&index);
        }
        let (starts, stops) = (flags(step.starts), flags(step.stops));
        for (k, running) in self.running.iter_mut().enumerate() {
            assert!(stops[k] == 0 || *running, "TK{} is stopped and does not run", k + 1);
            *running = starts[k] == 1 || stops[k] == 0 && *running;
        }
    }

    fn check(&self, keys: Keys) {
        for index in [keys.oldkey, keys.newkey].into_iter().flatten() {
            assert!(self.reported.contains(&index), "key {index} was not reported");
        }
    }
}

fn step_of(answer: Answer) -> Result<Step, u8> {
    let message = match answer.message.kind {
        0 => None,
        1 => Some(Message::Generate(answer.message.index)),
        _ => Some(Message::Confirm(answer.message.index)),
    };
    match answer.number {
        0 => Ok(Step { message, starts: answer.starts, stops: answer.stops }),
        number => Err(number),
    }
}

#[test]
fn runs_from_fresh() {
    let mut tally = Tally::default();
    let all = cases(3000, |random| {
        let (mut exchange, mut seen) = (KeyExchange::fresh(), Seen::default());
        for _ in 0..random.within(1, 200) {
            let (before, input) = (exchange, input(random, exchange));
            let answer = expected(before, input.into());
            let step = exchange.step(input);
            assert_eq!(exchange, answer.exchange, "{before:?} {input:?}");
            assert_eq!(step.map_err(Refusal::number), step_of(answer), "{before:?} {input:?}");
            tally.note("step", answer.number);
            if let Ok(step) = step {
                seen.take(input, step);
            }
            seen.check(exchange.sent_under().expect("a sound exchange"));
            seen.check(exchange.received_under().expect("a sound exchange"));
            tally.event(["KL0", "KL1", "KL2", "KL3", "KL4"][usize::from(exchange.state)]);
            if exchange.state == 4 && exchange.oldkey == 2 {
                tally.event("third exchange");
            }
        }
    });
    if all {
        tally.gave("step", 25, 1000);
        for event in ["KL0", "KL1", "KL2", "KL3", "KL4", "third exchange"] {
            tally.reached(event, 100);
        }
    }
}

#[test]
fn the_recommended_starts() {
    let starts = calls::xgpon_recommended_starts();
    assert_eq!(starts, TimerStarts { tk1: TK1_START_MS, tk2: TK2_START_MS, tk3: TK3_START_MS });
    assert_eq!(starts, TimerStarts { tk1: 100, tk2: 10, tk3: 10 });
}

/// What the C program `xgpon` must print for a list of inputs.
pub fn played(inputs: &[InputRecord]) -> String {
    let mut exchange = KeyExchange::default();
    let mut text = "starts 100 10 10\n".to_string();
    for &input in inputs {
        let refused = Answer { number: 1, exchange, ..Answer::default() };
        let answer = if known(input.kind) { expected(exchange, input) } else { refused };
        exchange = answer.exchange;
        let KeyExchange { state, oldkey, newkey } = exchange;
        let (KeyControl { kind, index }, starts, stops) = (answer.message, flags(answer.starts), flags(answer.stops));
        write!(text, "{}: KL{state} {oldkey} {newkey} message {kind} {index}", answer.number).expect("text");
        write!(text, " starts {}{}{} stops {}{}{}", starts[0], starts[1], starts[2], stops[0], stops[1], stops[2])
            .expect("text");
        let (sent, received) = (valid_keys(TO_SEND, exchange), valid_keys(TO_RECEIVE, exchange));
        write!(text, " send {} {}", sent.oldkey, sent.newkey).expect("text");
        writeln!(text, " receive {} {}", received.oldkey, received.newkey).expect("text");
    }
    text
}

pub fn random_inputs(random: &mut Random) -> Vec<InputRecord> {
    (0..random.within(1, 300)).map(|_| InputRecord { kind: random.below(11) as u8, index: random.below(4) as u8 }).collect()
}
