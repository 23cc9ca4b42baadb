#!/usr/bin/env python3
"""What the C program host/c/path.c must print, from the ends of tools/olt.py and tools/onu.py, which share no code with the engine.

usage: tools/c_path.py > host/c/path.stdout
"""
from ends import LOCAL, Named
from olt import fresh_olt
from onu import fresh_onu

OLT_MAC, FIRST, INTERVAL, LLID, UNIT = 0x020000000001, 0xFFFFFFFFFF00, 1000, 5, Named(0x020000000002, [5])
BEFORE, AFTER = (150, 100), (10, 20)
LETTER = b"\x00a letter" + b"\x01\xfe.      "
olt, onu = fresh_olt(OLT_MAC, FIRST)[1], fresh_onu(UNIT, OLT_MAC, (FIRST + BEFORE[1]) % LOCAL)[1]


def advance(n):
    worst = olt.advance(n) | onu.advance(n)
    print(f"advance {n}: {worst}, clock {olt.clock:012x} unit {onu.time:012x}")


def set_clock(path):
    olt.capture(LLID)
    sent, message = olt.clock_send(LLID)
    advance(path[0])
    taken, answer = onu.clock_message(message)
    advance(path[1])
    print(f"clock: send {sent} message {taken} acknowledge {olt.acknowledge(LLID, answer)}")


def give_key():
    sent, message = olt.offer(LLID, bytes([1, 2, 3] + 13 * [0]))
    advance(BEFORE[0])
    taken, answer = onu.key_message(message)
    advance(BEFORE[1])
    print(f"key: offer {sent} message {taken} acknowledge {olt.acknowledge(LLID, answer)}")


def arrives(end, delay, header, sealed):
    advance(delay)
    number, count, opened = end.receive(header, sealed, bytes(len(LETTER)))
    print(f"receive: {number} count {count}")
    return number == 0 and opened == LETTER


def down(path):
    number, header, _, sealed = olt.send(LLID, 0x00, LETTER, bytes(len(LETTER)))
    print(f"send down: {number} sealed {header[2]}")
    return number == 0 and arrives(onu, path[0], header, sealed)


def up(path, channel, lost=False):
    number, header, _, sealed = onu.send(LLID, channel, LETTER, bytes(len(LETTER)))
    print(f"send up: {number} sealed {header[2]} clock {onu.time:012x}")
    return number == 0 and not lost and arrives(olt, path[1], header, sealed)


def change():
    measured, timed = olt.measure(LLID, sum(AFTER)), onu.new_time((olt.clock + AFTER[1]) % LOCAL)
    print(f"change: measure {measured} new time {timed}, changes {onu.changes}")


if __name__ == "__main__":
    print(f"fresh 0 register {olt.register(UNIT, sum(BEFORE), INTERVAL)}")
    set_clock(BEFORE)
    give_key()
    advance(INTERVAL)
    down(BEFORE)
    up(BEFORE, 0x80)
    up(BEFORE, 0x81, lost=True)
    change()
    down(AFTER)
    up(AFTER, 0x80)
    set_clock(AFTER)
    read = down(AFTER)
    up(AFTER, 0x80)
    wait = max(0, onu.bar - onu.travel())
    print(f"to wait: {wait}")
    advance(wait)
    read += up(AFTER, 0x81)
    print(f"letters: {read}")
