#!/usr/bin/env python3
"""What the program `test_losses` must print: for each script of its input, the refusal code, or 0 and the first step whose loss
alone changes the final A, C or a, 0 if there is none (02, C-23).

usage: tools/losses.py crates/test_losses     writes its stdin, a length of two octets ahead of each script, and its stdout
Plays on the ends of tools/olt.py and tools/onu.py; shares no code with the engine.
"""
import random
import sys
from ends import NO_ANSWER, Named
from olt import fresh_olt
from onu import fresh_onu

OLT_MAC, UNIT_MAC, LLID = 0x020000000001, 0x020000000002, 1
CLOCK, OFFER, RETRY, CLOCK_ANSWER, KEY_ANSWER, DOWN, UP, ADVANCE = range(8)


class Play:
    """Fresh ends with one unit, and the unit's answers to the latest clock message and to the latest key message."""

    def __init__(self, interval):
        named = Named(UNIT_MAC, [LLID])
        self.olt, self.onu = fresh_olt(OLT_MAC, 0)[1], fresh_onu(named, OLT_MAC, 0)[1]
        self.olt.register(named, 0, interval)
        self.clock = self.key = NO_ANSWER

    def message(self, number, message, lost, take):
        return NO_ANSWER if number or lost else take(message)[1]

    def step(self, k, kind, ticks, lost):
        olt, onu = self.olt, self.onu
        if kind == CLOCK:
            olt.capture(LLID)
            self.clock = self.message(*olt.clock_send(LLID), lost, onu.clock_message)
        elif kind == OFFER:
            self.key = self.message(*olt.offer(LLID, bytes([k]) + bytes(15)), lost, onu.key_message)
        elif kind == RETRY:
            self.key = self.message(*olt.retry(LLID), lost, onu.key_message)
        elif kind in (CLOCK_ANSWER, KEY_ANSWER):
            answer = self.clock if kind == CLOCK_ANSWER else self.key
            if answer != NO_ANSWER and not lost:
                olt.acknowledge(LLID, answer)
        elif kind == DOWN:
            number, header, _, octets = olt.send(LLID, 0x00, b"", b"")
            if not number and not lost:
                onu.receive(header, octets, b"")
        elif kind == UP:
            number, header, _, octets = onu.send(LLID, 0x80, b"", b"")
            if not number and not lost:
                olt.receive(header, octets, b"")
        else:
            olt.advance(ticks)
            onu.advance(ticks)


def final(interval, steps, lost):
    play = Play(interval)
    for k, (kind, ticks) in enumerate(steps, 1):
        play.step(k, kind, ticks, k == lost)
    unit = play.olt.units[0]
    return unit.A, unit.C, play.onu.a


def first_loss(script):
    """The number, and the step or 0."""
    interval, rest = int.from_bytes(script[:8], "big"), script[8:]
    if len(script) < 8 or not 1 <= interval <= 2**47:
        return 1, 0
    steps = [(rest[i], int.from_bytes(rest[i + 1:i + 9], "big")) for i in range(0, len(rest), 9)]
    if len(rest) % 9 or len(steps) > 64 or any(kind > 7 or (kind < 7 and ticks) for kind, ticks in steps):
        return 26, 0
    whole = final(interval, steps, 0)
    return 0, next((k for k in range(1, len(steps) + 1) if final(interval, steps, k) != whole), 0)


def octets(interval, steps):
    pairs = [(x, 1 if x == ADVANCE else 0) if isinstance(x, int) else x for x in steps]
    return interval.to_bytes(8, "big") + b"".join(bytes([kind]) + ticks.to_bytes(8, "big") for kind, ticks in pairs)


def known():
    """Scripts of every kind: what matters first, what rescues, what is refused."""
    start = [CLOCK, CLOCK_ANSWER]
    switch = [ADVANCE, DOWN, UP]
    yield octets(1, [])
    yield octets(1, [ADVANCE] * 64)
    # each kind of message first to matter
    yield octets(1, start + [OFFER, KEY_ANSWER] + switch)                                     # the clock message
    yield octets(1, [CLOCK] + start + [OFFER, KEY_ANSWER] + switch)
    yield octets(1, [CLOCK] + start + [CLOCK_ANSWER, OFFER, KEY_ANSWER] + switch)             # the offer
    yield octets(1, [CLOCK, CLOCK_ANSWER, CLOCK, CLOCK_ANSWER, OFFER, KEY_ANSWER, ADVANCE, DOWN, UP, KEY_ANSWER, OFFER, KEY_ANSWER, ADVANCE,
                     DOWN, UP, RETRY, KEY_ANSWER, OFFER, ADVANCE, DOWN, UP, OFFER, KEY_ANSWER, ADVANCE, DOWN, UP])  # a key acknowledgement
    yield octets(1, start + [OFFER, CLOCK_ANSWER, OFFER, KEY_ANSWER] + switch)                 # a clock acknowledgement: too early an offer
    yield octets(1, start + start + [OFFER, RETRY, KEY_ANSWER] + switch)                      # a retry rescues the offer
    yield octets(1, start + start + [OFFER, KEY_ANSWER, RETRY, KEY_ANSWER] + switch)          # an acknowledgement lost and repeated
    yield octets(1, start + start + [OFFER, RETRY, KEY_ANSWER, KEY_ANSWER] + switch + [DOWN, UP])  # the envelope down, the envelope up
    yield octets(1, start + start + [OFFER, RETRY, KEY_ANSWER, KEY_ANSWER, ADVANCE, DOWN, ADVANCE, DOWN, UP])
    yield octets(1, start + start + [OFFER, RETRY, KEY_ANSWER, KEY_ANSWER, ADVANCE, DOWN, ADVANCE, DOWN, UP, ADVANCE, UP])
    # the latest step of a kind, even if it was refused: the second offer is, so its acknowledgement does nothing
    yield octets(1, start + [OFFER, OFFER, KEY_ANSWER] + switch)
    # missing steps; an interval that is not reached; an advance that both ends refuse
    yield octets(1, [CLOCK_ANSWER, KEY_ANSWER, OFFER, RETRY, DOWN, UP])
    yield octets(2, start + start + [OFFER, KEY_ANSWER] + switch)
    yield octets(2**47, start + start + [OFFER, RETRY, KEY_ANSWER, KEY_ANSWER, (ADVANCE, 2**47), DOWN, UP])
    yield octets(1, start + start + [OFFER, RETRY, KEY_ANSWER, KEY_ANSWER, (ADVANCE, 2**62), (ADVANCE, 1), DOWN, UP])
    yield octets(1, start + start + [OFFER, RETRY, KEY_ANSWER, KEY_ANSWER, (ADVANCE, 2**62 + 1), DOWN, UP])
    # 1, then 26
    yield b""
    yield bytes(7)
    yield octets(0, [8])
    yield octets(2**47 + 1, [])
    yield octets(1, [8])
    yield octets(1, [ADVANCE] * 65)
    yield octets(1, [ADVANCE])[:-1]
    yield octets(1, []) + b"\x07"
    for kind in range(7):
        yield octets(1, [(kind, 1)])


def drawn(seed, count):
    """Random scripts, most of them of exchanges that go somewhere."""
    draw = random.Random(seed)
    parts = [[CLOCK, CLOCK_ANSWER], [OFFER, KEY_ANSWER], [RETRY, KEY_ANSWER], [ADVANCE, DOWN, UP], [DOWN], [UP], [KEY_ANSWER], [OFFER], [ADVANCE]]
    for _ in range(count):
        steps, most = [CLOCK, CLOCK_ANSWER] * draw.randint(1, 2), draw.randint(4, 64)
        while len(steps) < most:
            steps += draw.choice(parts) if draw.random() < 0.8 else [draw.randrange(8)]
        yield octets(draw.choice([1, 1, 2, 3, 5]), [(ADVANCE, draw.randint(0, 4)) if x == ADVANCE else x for x in steps[:most]])


if __name__ == "__main__":
    scripts = [*known(), *drawn(23, 160)]
    with open(sys.argv[1] + "/stdin", "wb") as out:
        out.write(b"".join(len(s).to_bytes(2, "big") + s for s in scripts))
    with open(sys.argv[1] + "/stdout", "w", encoding="ascii") as out:
        out.writelines("%d %d\n" % first_loss(s) for s in scripts)
