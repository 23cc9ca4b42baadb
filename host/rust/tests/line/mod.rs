//! Random lists of calls on an OLT and three ONUs, over a line that loses things.
//!
//! A list of `Kind::Line` keeps to what 01 says of the line: messages and envelopes arrive in order, a way's delay after they left,
//! or never, and whatever else is received is refused. Both ends are told of a path change at one tick (02, C-16). There every
//! envelope that arrives must open to its payload, and no two sealed envelopes, of units and groups together, may share a key, a
//! channel index, a MAC and a clock. Of a group's envelopes those must open that are clear, or under a key whose message the member
//! accepted since it joined, once it is synced. In a list of `Kind::Wild` anything arrives at any time, damaged or not.

mod groups;
mod lent_ends;
mod messages;
mod paths;
mod strays;
mod time;
mod traffic;
mod world;

use crate::random::cases;
use crate::reference::olt::Olt;
use crate::reference::onu::Onu;
use crate::reference::records::End;
use crate::tally::Tally;
use std::collections::BTreeSet;
use world::World;

#[derive(Clone, Copy, PartialEq)]
enum Kind {
    Line,
    Wild,
}

impl World<'_> {
    /// A step of a list, mostly as 01 has things go.
    fn step(&mut self) {
        let i = self.any_station();
        if self.random.once_in(self.calm) {
            self.leap(i);
        }
        if self.random.once_in(self.settled) {
            self.change_path(i);
        }
        match self.random.below(100) {
            0..=29 => self.pass_time(i),
            30..=34 => self.arrive_down(i),
            35..=39 => self.arrive_up(i),
            40..=46 => self.acknowledge(i),
            47..=52 => self.capture(i),
            53..=57 => self.clock_send(i),
            58..=63 => self.offer(i),
            64..=74 => self.olt_send(i),
            75..=84 => self.onu_send(i),
            85 => self.register(i),
            86 => self.change_wrongly(i),
            87..=90 => self.receive_damaged(i),
            91..=92 => self.overhear(),
            93..=95 => self.stray(i),
            96 => self.register_wrongly(i),
            97 => self.lent_olt(i),
            98 => self.lent_onu(i),
            _ => self.unknown_llid(),
        }
        if self.random.once_in(3) {
            let g = self.any_group();
            self.group_step(i, g);
        }
    }

    /// A step of a list with a group.
    fn group_step(&mut self, i: usize, g: usize) {
        match self.random.below(100) {
            0..=39 => self.group_send(g),
            40..=69 => self.offer_to_group(g),
            70..=77 => self.join(i, g),
            78..=83 => self.register_group(g),
            84..=87 => self.register_group_wrongly(i, g),
            88..=93 => self.wrong_way(i, g),
            _ => self.group_stray(i, g),
        }
    }
}

fn lists(kind: Kind, count: u64, steps: u64, tally: &mut Tally) -> bool {
    cases(count, |random| {
        let lift_at = if random.once_in(3) { random.below(steps) } else { steps };
        let mut world = World::new(kind, random, tally);
        for step in 0..steps {
            if step >= lift_at {
                let i = world.any_station();
                if world.random.once_in(50) {
                    let g = world.any_group();
                    world.lift(i);
                    world.lift_group(g);
                    world.shift_travel(i);
                }
            }
            world.late = step >= steps / 10 * 9;
            world.step();
        }
        assert_eq!(Some(world.olt.sound()), Olt::lent(&world.olt.record).as_ref());
        for station in &world.stations {
            assert_eq!(Some(station.end.sound()), Onu::lent(&station.end.record).as_ref());
        }
    })
}

/// What the lists of one test must reach, so that an engine that stops early, or lists that do, are noticed.
const LEAST: [(&str, u64); 31] = [
    ("OLT sends clear", 3000),
    ("OLT sends under key 1", 1500),
    ("OLT sends under key 2", 1000),
    ("OLT sends under key 3 or later", 2000),
    ("OLT switched", 700),
    ("OLT confirmed a key", 500),
    ("OLT sends at the last tick of a key", 15),
    ("unit sends clear", 3000),
    ("unit sends under key 1", 1500),
    ("unit sends under key 2", 1000),
    ("unit sends under key 3 or later", 2000),
    ("unit changed keys", 500),
    ("unit sends at the last tick of a key", 15),
    ("clock passed 2^32", 300),
    ("clock passed 2^48", 300),
    ("key numbers near their end", 200),
    ("lost on the line", 3000),
    ("overheard", 3000),
    ("group sends clear", 3000),
    ("group sends under key 1", 1500),
    ("group sends under key 2", 1000),
    ("group sends under key 3 or later", 2000),
    ("group switched unacknowledged", 500),
    ("group sends at the last tick of a key", 15),
    ("member missed a key", 300),
    ("a group's key numbers near their end", 50),
    ("path changed", 1000),
    ("path changed to a shorter", 1000),
    ("sum of changes near its end", 200),
    ("unit waits for its Tx clock", 100),
    ("unit seals after a change", 500),
];

const LEAST_ARRIVED: [(&str, u64); 9] = [
    ("arrived down clear", 1500),
    ("arrived down sealed", 3000),
    ("arrived up clear", 1500),
    ("arrived up sealed", 3000),
    ("arrived at a member clear", 1500),
    ("arrived at a member sealed", 1500),
    ("member came back", 300),
    ("overheard by a joined unit", 300),
    ("unsynced member refused", 100),
];

/// Each number of the ends: 15 is the capture reader's alone, 18 and 19 too.
const LEAST_REFUSED: u64 = 100;

/// Prints what the lists reached, and fails where that is too little.
fn check_reach(tally: &Tally, least: impl IntoIterator<Item = (&'static str, u64)>) {
    for (event, times) in &tally.events {
        println!("{times:9}  {event}");
    }
    for ((call, number), times) in &tally.numbers {
        println!("{times:9}  {call} {number}");
    }
    for (event, wanted) in least {
        tally.reached(event, wanted);
    }
    for number in (1..=21).filter(|&number| ![15, 18, 19].contains(&number)) {
        let times = tally.refusals(number);
        assert!(times >= LEAST_REFUSED, "refused {number}: {times} times, wanted {LEAST_REFUSED}");
    }
    let calls: BTreeSet<&str> = tally.numbers.keys().map(|(call, _)| *call).collect();
    assert_eq!(calls.len(), 20, "calls made: {calls:?}");
}

#[test]
fn lists_of_the_line() {
    let mut tally = Tally::default();
    if lists(Kind::Line, 600, 2500, &mut tally) {
        check_reach(&tally, LEAST.into_iter().chain(LEAST_ARRIVED));
    }
}

#[test]
fn wild_lists() {
    let mut tally = Tally::default();
    if lists(Kind::Wild, 600, 2500, &mut tally) {
        check_reach(&tally, LEAST);
    }
}
