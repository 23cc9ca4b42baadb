#!/usr/bin/env python3
"""What the program `test_exchange` must print: its script, played on the ends of tools/olt.py and tools/onu.py.

usage: tools/test_exchange.py < crates/test_exchange/stdin > crates/test_exchange/stdout
Shares no code with the engine; AES-128 is that of the Python package `cryptography`.
"""
import sys

import script
from ends import CHANGES, NO_ANSWER, NO_HEADER, NO_MESSAGE, NO_STAMPS, Answer, Named
from olt import fresh_olt
from onu import fresh_onu

OLT_MAC, UNIT = 0x020000000001, Named(0x020000000002, [5, 6])


def key(first):
    """A key by its first octet; 0 is the key of zeros."""
    return bytes([first] + list(range(1, 16))) if first else bytes(16)


def eqs(*controls):
    """EQs with those control octets."""
    return b"".join(bytes([c] + [16 * (e + 1) + j for j in range(8)]) for e, c in enumerate(controls))


def keyed(keys, number, other):
    """Key `number` has the first octet 17, the one beside it `other`."""
    keys[number % 2], keys[1 - number % 2] = key(17), key(other)


def travelled(value):
    """A travel that a record of 64 bits can hold: it counts from 2^61 below zero."""
    return (value + CHANGES) % 2**64 - CHANGES


def signed(value):
    return (value + 2**63) % 2**64 - 2**63


def named(n):
    """MAC, two LLIDs of four places, and how many are in use."""
    return Named(n[0], [n[1], n[2], 7, 8], n[3])


class Play:
    """An OLT and two units, what is under way, and what the last call gave. `at` is "olt" or the unit that is spoken of."""

    def __init__(self):
        self.olt, self.onus = fresh_olt(OLT_MAC, 0)[1], {name: fresh_onu(UNIT, OLT_MAC, 0)[1] for name in ("onu", "onu2")}
        self.stamps, self.message, self.answer = NO_STAMPS, NO_MESSAGE, NO_ANSWER
        self.envelopes, self.header, self.count, self.out = {}, NO_HEADER, 0, b""
        self.number, self.others = 0, []
        self.speak_of("olt")

    def speak_of(self, end):
        self.at, self.place, self.payload, self.length, self.room = end, 0, eqs(0x00, 0x81, 0x01, 0x00), 27, 27
        self.spoken = 0

    def end(self):
        return self.olt if self.at == "olt" else self.onus[self.at]

    def unit(self):
        return self.olt.units[self.place]

    def group(self):
        """The group that is spoken of, at the OLT or at a unit."""
        return self.olt.groups[self.spoken] if self.at == "olt" else self.end().joined[self.spoken]

    def send(self, llid, channel, place):
        self.number, self.header, self.count, self.out = self.end().send(llid, channel, self.payload[:self.length], b"\xaa" * self.room)
        self.envelopes[place] = self.header, self.out

    def receive(self, header, octets):
        self.number, self.count, self.out = self.end().receive(header, octets[:self.length], b"\xaa" * self.room)

    def one(self, interval):
        self.olt = fresh_olt(OLT_MAC, 0)[1]
        self.number = self.olt.register(UNIT, 250, interval)

    def keyed_olt(self, confirmed, active, offered, other):
        self.one(1000)
        self.olt.tick, self.olt.clock, u = 100, 65, self.olt.units[0]
        u.C, u.A, u.O, u.sent, u.clocked = confirmed, active, offered, 1, 1
        keyed(u.keys, active, other)

    def viewers(self, active, offered, other):
        self.keyed_olt(0, 0, 0, 0)
        self.olt.register(Named(0x020000000003, [7]), 0, 1000)
        second = self.olt.units[1]
        second.sent = second.clocked = 1
        keyed(second.keys, 0, 0)
        self.number, g = self.olt.register_group(9, 1000, [6, 7]), self.olt.groups[0]
        g.A, g.O = active, offered
        keyed(g.keys, active, other)

    def full(self):
        self.olt = fresh_olt(OLT_MAC, 0)[1]
        for n in range(16):
            self.number = self.olt.register(Named(3, range(4 * n, 4 * n + 4)), 0, 100)

    def keyed_onu(self, active, held, other):
        self.number, o = fresh_onu(UNIT, OLT_MAC, 65)
        o.tick, o.synced, o.time, o.rx, o.a, o.held = 100, 1, 2**32 + 65, 2**32 + 65 - 250, active, held
        keyed(o.keys, active, other)
        self.onus[self.at] = o

    def set_group_field(self, name, n):
        """True if the word is one of a group's."""
        g = self.group()
        if name == "groups":
            setattr(self.end(), "groupcount" if self.at == "olt" else "joinedcount", n[0])
        elif name in ("member", "group_mark") and self.at == "olt":
            (g.places if name == "member" else g.marks)[n[0]] = n[1]
        else:
            fields = {"group_llid": "llid", "group_interval": "interval", "group_count": "count", "group_flag": "flag", "group_noted": "noted",
                      "group_first": "first", "group_active": "A", "group_offered": "O", "members": "members"}
            joined = {"joined_llid": "llid", "joined_active": "a", "joined_held": "held", "joined_kept": "kept"}
            field = (fields if self.at == "olt" else joined).get(name)
            if field is None:
                return False
            setattr(g, field, n[0])
        self.number = 0
        return True

    def set_field(self, name, value):
        end = self.end()
        if name in ("channel0", "channel1"):
            end.free[int(name[-1])] = value
        elif name == "units":
            self.olt.count = value
        else:
            holder = self.unit() if self.at == "olt" and name not in ("mac", "tick", "clock") else end
            field = {"marked": "mark", "captured_at": "capture", "olt_mac": "oltmac", "identity": "named"}.get(name, name)
            if self.at != "olt" and name in ("first", "spent", "bar"):
                value = travelled(value)
            if name == "changes":
                value = signed(value)
            if not hasattr(holder, field):
                sys.exit(f"no word of the {self.at}: {name}")
            setattr(holder, field, value)
        self.number = 0

    def at_olt(self, word, n):
        o = self.olt
        if word == "fresh":
            self.number, self.olt = fresh_olt(n[0], n[1])
        elif word == "one":
            self.one(n[0])
        elif word == "keyed":
            self.keyed_olt(*n[:4])
        elif word == "full":
            self.full()
        elif word == "viewers":
            self.viewers(*n[:3])
        elif word == "register_group":
            # how many members, the LLIDs of the first three; each one after is four higher than the one before
            self.number = o.register_group(n[0], n[1], [n[3], n[4], n[5], *(n[5] + 4 * k for k in range(1, 254))][:n[2]])
        elif word == "timer":
            self.number = o.units[0].flag
        elif word == "register":
            self.number = o.register(named(n), n[4], n[5])
        elif word == "capture":
            self.number = o.capture(n[0])
        elif word == "measure":
            self.number = o.measure(n[0], n[1])
        elif word == "clock_send":
            self.number, self.stamps = o.clock_send(n[0])
        elif word == "offer":
            self.number, self.message = o.offer(n[0], key(n[1]))
        elif word == "retry":
            self.number, self.message = o.retry(n[0])
        elif word == "acknowledge":
            self.number = o.acknowledge(n[0], Answer(n[1], n[2], n[3], n[4]))
        elif word == "arrive":
            self.number = o.acknowledge(n[0], self.answer)
        elif not self.set_group_field(word, n):
            self.set_field(word, named(n) if word == "identity" else n[0])

    def at_onu(self, word, n):
        o = self.onus[self.at]
        if word == "fresh":
            self.number, self.onus[self.at] = fresh_onu(named(n), n[4], n[5])
        elif word == "keyed":
            self.keyed_onu(*n[:3])
        elif word == "join":
            self.number = o.join(n[0])
        elif word == "new_time":
            self.number = o.new_time(n[0])
        elif word == "clock_message":
            self.number, self.answer = o.clock_message((n[0], n[1]))
        elif word == "clock_arrives":
            self.number, self.answer = o.clock_message(self.stamps)
        elif word == "key_message":
            self.number, self.answer = o.key_message((n[0], n[1], key(n[2])))
        elif word == "key_arrives":
            self.number, self.answer = o.key_message(self.message)
        elif not self.set_group_field(word, n):
            self.set_field(word, named(n) if word == "identity" else n[0])

    def command(self, word, n):
        if word in ("olt", "onu", "onu2"):
            self.speak_of(word)
        elif word == "unit":
            self.place = n[0]
        elif word == "group":
            self.spoken = n[0]
        elif word == "lengths":
            self.length, self.room = n[:2]
        elif word == "control":
            self.payload = eqs(*n[:3], 0)
        elif word == "all":
            self.number, *self.others = (end.advance(n[0]) for end in (self.olt, self.onus["onu"], self.onus["onu2"]))
        elif word == "advance":
            self.number = self.end().advance(n[0])
        elif word == "send":
            self.send(*n[:3])
        elif word == "receive":
            self.receive(tuple(n[:5]), self.payload)
        elif word == "take":
            self.receive(*self.envelopes[n[0]])
        else:
            (self.at_olt if self.at == "olt" else self.at_onu)(word, n)

    def state(self):
        o, u = self.end(), self.unit()
        text = f", A {u.A} C {u.C} O {u.O}, acknowledged {u.mark}, flag {u.flag}" if self.at == "olt" else f", a {o.a} held {o.held}"
        noted = u if self.at == "olt" else o
        return text + f", first {noted.noted} {noted.first % 2**64}, free {o.free[0]} {o.free[1]}"

    def group_state(self):
        o, g = self.end(), self.group()
        if self.at != "olt":
            return f", LLID {g.llid} a {g.a} kept {g.kept} held {g.held}"
        members = "".join(f" {p}" for p in g.places[:g.members]) + ", marks" + "".join(f" {m}" for m in g.marks[:g.members])
        return (f", LLID {g.llid} A {g.A} O {g.O}, flag {g.flag}, first {g.noted} {g.first}, free {o.free[0]} {o.free[1]}"
                f", members{members}")

    def value(self, name):
        o, u = self.end(), self.unit()
        if self.at == "olt":
            return {"MAC": o.mac, "tick": o.tick, "clock": o.clock, "units": o.count, "count": u.count, "flag": u.flag,
                    "acknowledged": u.mark, "Rx": self.stamps[0], "Tx": self.stamps[1], "groups": o.groupcount}[name]
        return {"MAC": o.named.mac, "LLIDs": o.named.count, "tick": o.tick, "Rx": o.rx, "Tx": o.time, "LocalTime": o.time,
                "held": o.held, "kind": self.answer.kind, "groups": o.joinedcount,
                "changes": o.changes % 2**64, "spent": o.spent + CHANGES, "bar": o.bar + CHANGES}[name]

    def shown(self, name):
        u, o, (i, l, e, k, p) = self.unit(), self.end(), self.header
        passed = f", count {self.count}, output {self.out.hex()}"
        if name == "sent":
            return f", header {i:02x} {l:04x} {e} {k} {p:02x}" + passed + self.state()
        if name == "received":
            return passed + self.state()
        if name == "state":
            return self.state()
        if name == "stamps":
            rx, tx = self.stamps if self.at == "olt" else (o.rx, o.time)
            return f", Rx {rx:012x}, Tx {tx:012x}"
        if name == "slots":
            even, odd = (u if self.at == "olt" else o).keys
            return f", {even.hex()} {odd.hex()}"
        if name == "message":
            return f", LLID {self.message[0]}, number {self.message[1]}, octet {self.message[2][0]}"
        if name == "answer":
            return f", kind {self.answer.kind}, number {self.answer.number}"
        if name == "named":
            return f", named {self.answer.named}, unit {self.answer.unit}"
        if name == "passed":
            return passed
        if name == "group":
            return self.group_state()
        if name == "group_slots":
            return f", {self.group().keys[0].hex()} {self.group().keys[1].hex()}"
        if name == "ends":
            return " {} {}".format(*self.others) + f", tick {self.olt.tick}, clock {self.olt.clock:012x}"
        if name == "keys":
            o = self.onus["onu2" if self.place else "onu"]
            return f", A {u.A}, C {u.C}, a {o.a}, key {u.keys[u.A % 2].hex()} {o.keys[o.a % 2].hex()}"
        if name == "clocks":
            return f", OLT clock {self.olt.clock}, Tx {self.onus['onu'].time}, Rx {self.onus['onu'].rx}"
        return f", {name} {self.value(name)}"


script.play(Play(), sys.stdin.read())
