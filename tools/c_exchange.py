#!/usr/bin/env python3
"""What the C program host/c/exchange.c must print, from the ends of tools/olt.py and tools/onu.py, which share no code with the engine.

usage: tools/c_exchange.py > host/c/exchange.stdout
"""
from ends import Named
from olt import fresh_olt
from onu import fresh_onu

DOWN, UP, INTERVAL, FIRST = 20, 12, 1000, 0xFFFFFFFFFF00
OLT_MAC, UNIT = 0x020000000001, Named(0x020000000002, [5, 6])
PAYLOAD = bytes([0x00, *range(0x10, 0x18), 0x81, *range(0x20, 0x28), 0x01, *range(0x30, 0x38)])
NOTHING = bytes(len(PAYLOAD))

(olt_number, olt), (onu_number, onu) = fresh_olt(OLT_MAC, FIRST), fresh_onu(UNIT, OLT_MAC, (FIRST + UP) % 2**32)


def advance(n):
    print(f"advance {n}: {olt.advance(n)} {onu.advance(n)}")


def key_message(name, answer):
    number, (llid, n, key) = answer
    print(f"{name}: {number} llid {llid} number {n} key {key.hex()}")
    return llid, n, key


def offer(first):
    return key_message("offer", olt.offer(5, bytes((first + i) % 256 for i in range(16))))


def acknowledge(ack):
    advance(UP)
    print(f"acknowledge {ack[0]} {ack[1]}: {olt.acknowledge(6, ack)}")


def set_clock():
    print(f"capture: {olt.capture(5)}")
    advance(5)
    number, message = olt.clock_send(5)
    print(f"clock send: {number} rx {message[0]:012x} tx {message[1]:012x}")
    advance(DOWN)
    number, ack = onu.clock_message(message)
    print(f"clock message: {number}")
    acknowledge(ack)


def take_key(message):
    advance(DOWN)
    number, ack = onu.key_message(message)
    print(f"key message: {number}")
    acknowledge(ack)


def passage(names, sender, llid, channel, delay, receiver):
    number, header, count, sealed = sender.send(llid, channel, PAYLOAD, NOTHING)
    channel, to, enabled, enckey, epam = header
    print(f"{names[0]}: {number} header {channel:02x} {to:04x} {enabled} {enckey} {epam} count {count} octets {sealed.hex()}")
    advance(delay)
    number, count, opened = receiver.receive(header, sealed, NOTHING)
    print(f"{names[1]}: {number} count {count} {'the payload' if opened == PAYLOAD else 'not the payload'}")


def both_ways(channel):
    passage(("olt send", "onu receive"), olt, 5, channel, DOWN, onu)
    passage(("onu send", "olt receive"), onu, 6, 0x80 | channel, UP, olt)
    u = olt.units[0]
    print(f"  tick {olt.tick} clock {olt.clock:012x} A {u.A} C {u.C} O {u.O} flag {u.flag}, "
          f"unit a {onu.a} held {onu.held} tx {onu.time:012x} rx {onu.rx:012x}")


def change_keys(first):
    offer(first)
    advance(100)
    take_key(key_message("retry", olt.retry(6)))
    both_ways(0)
    advance(INTERVAL)
    both_ways(1)
    both_ways(0)


if __name__ == "__main__":
    print(f"fresh: {olt_number} {onu_number}")
    for _ in range(2):
        number = olt.register(UNIT, DOWN + UP, INTERVAL)
        print(f"register: {number} units {olt.count}")
    offer(0x40)
    set_clock()
    both_ways(0)
    change_keys(0x40)
    change_keys(0xA0)
    u = olt.units[0]
    print(f"both hold key 2: {int(u.A == u.C == onu.a == 2 and u.keys[0] == onu.keys[0])}")
