"""The OLT with its groups, written from document 01, from document 02 (C-14, C-16) and the decisions on both. Shares no code with the
engine."""
from ends import LAST, NO_HEADER, NO_MESSAGE, NO_STAMPS, SECOND, TOP, TURN, Named, good_header, old
from sealing import misfit, seal


class Unit:
    """The OLT's record of a unit; `keys` by index, number modulo 2."""

    def __init__(self, named, trip, interval):
        self.named, self.trip, self.interval = named, trip, interval
        self.count = self.flag = self.A = self.C = self.O = self.mark = 0
        self.keys = [bytes(16), bytes(16)]
        self.noted = self.first = self.captured = self.capture = self.sent = self.clocked = 0

    def valid(self, tick):
        flags = (self.flag, self.mark, self.noted, self.captured, self.sent, self.clocked)
        return (self.named.in_range() and self.trip <= 1000000 and 1 <= self.interval <= 2**47 and self.count < self.interval
                and max(flags) <= 1 and not (self.noted and self.first > tick) and not (self.captured and self.capture > tick)
                and self.C <= self.A <= self.O <= self.C + 1 and self.O <= TOP)

    def switches(self):
        return self.flag == 1 and self.O == self.A + 1 and self.mark == 1


class Group:
    """The OLT's record of a group. `places` of members among the units and `marks`, the first `members` of which are in use."""

    def __init__(self, llid, interval, places):
        self.llid, self.interval, self.members = llid, interval, len(places)
        self.places, self.marks = (list(places) + [0] * 8)[:8], [0] * 8
        self.count = self.flag = self.A = self.O = self.noted = self.first = 0
        self.keys = [bytes(16), bytes(16)]

    def used(self):
        return self.places[:self.members]

    def valid(self, units, tick):
        flags = [self.flag, self.noted, *self.marks[:self.members]]
        return (1 <= self.members <= 8 and all(p < units for p in self.used()) and len(set(self.used())) == self.members
                and 1 <= self.interval <= 2**47 and self.count < self.interval and max(flags) <= 1
                and not (self.noted and self.first > tick) and self.A <= self.O <= self.A + 1 and self.O <= TOP)

    def switches(self):
        """Acknowledged or not."""
        return self.flag == 1 and self.O == self.A + 1


class Olt:
    def __init__(self, mac=0, clock=0):
        self.mac, self.clock, self.tick, self.free, self.count = mac, clock, 0, [0, 0], 0
        self.units = [Unit(Named(0, []), 0, 0) for _ in range(16)]
        self.groups, self.groupcount = [Group(0, 0, []) for _ in range(16)], 0

    def valid(self):
        if self.count + self.groupcount > 16:
            return False
        used, groups = self.units[:self.count], self.groups[:self.groupcount]
        llids = [x for u in used for x in u.named.llids()] + [g.llid for g in groups]
        return (self.mac < 2**48 and self.clock < TURN and self.tick <= LAST and max(self.free) <= LAST + 4194304
                and all(u.valid(self.tick) for u in used) and all(g.valid(self.count, self.tick) for g in groups)
                and len(set(llids)) == len(llids))

    def group(self, llid):
        return next((g for g in self.groups[:self.groupcount] if g.llid == llid), None)

    def place(self, llid):
        return next((i for i, u in enumerate(self.units[:self.count]) if llid in u.named.llids()), None)

    def unit(self, llid):
        return next((u for u in self.units[:self.count] if llid in u.named.llids()), None)

    def ahead(self, llid, grouped=False):
        """1 for the end that is lent, then 2; `grouped` where a group may be named."""
        if not self.valid():
            return 1
        return 0 if self.unit(llid) or grouped and self.group(llid) else 2

    def register(self, named, trip, interval):
        if not self.valid() or not named.in_range() or trip > 1000000 or not 1 <= interval <= 2**47:
            return 1
        if named.twice() or any(self.unit(x) or self.group(x) for x in named.llids()):
            return 3
        if self.count + self.groupcount == 16:
            return 4
        self.units[self.count] = Unit(named.kept(), trip, interval)
        self.count += 1
        return 0

    def register_group(self, llid, interval, named):
        """`named` are the LLIDs by which members are named, however many."""
        if not self.valid() or not 1 <= interval <= 2**47 or not named:
            return 1
        places = [self.place(x) for x in named]
        if len(named) > 8 or None in places or len(set(places)) < len(places):
            return 21
        if self.unit(llid) or self.group(llid):
            return 3
        if self.count + self.groupcount == 16:
            return 4
        self.groups[self.groupcount] = Group(llid, interval, places)
        self.groupcount += 1
        return 0

    def advance(self, n):
        if not self.valid():
            return 1
        if self.tick + n > LAST:
            return 17
        self.tick, self.clock = self.tick + n, (self.clock + n) % TURN
        for u in self.units[:self.count] + self.groups[:self.groupcount]:
            u.flag = 1 if u.count + n >= u.interval else u.flag
            u.count = (u.count + n) % u.interval
        return 0

    def capture(self, llid):
        number = self.ahead(llid)
        if number == 0:
            u = self.unit(llid)
            u.captured, u.capture = 1, self.tick
        return number

    def measure(self, llid, trip):
        if not self.valid() or trip > 1000000:
            return 1
        u = self.unit(llid)
        if u is None:
            return 2
        u.trip = trip
        u.captured = u.capture = u.sent = u.clocked = 0
        return 0

    def clock_send(self, llid):
        number, u = self.ahead(llid), self.unit(llid)
        if number:
            return number, NO_STAMPS
        if not u.captured:
            return 8, NO_STAMPS
        if self.tick - u.capture > SECOND:
            return 16, NO_STAMPS
        u.sent, rx = 1, (self.clock - (self.tick - u.capture)) % TURN
        return 0, (rx, (rx + u.trip) % TURN)

    def offer(self, llid, key):
        number, g = self.ahead(llid, True), self.group(llid)
        u = g or self.unit(llid)
        if number:
            return number, NO_MESSAGE
        if not all(m.clocked for m in ([self.units[p] for p in g.used()] if g else [u])):
            return 5, NO_MESSAGE
        if u.O > u.A or not g and u.C < u.A:
            return 6, NO_MESSAGE
        if u.A >= 1 and u.keys[u.A % 2] == key:
            return 7, NO_MESSAGE
        if u.A == TOP:
            return 17, NO_MESSAGE
        u.O = u.A + 1
        if g:
            g.marks = [0] * 8
        else:
            u.mark = 0
        u.keys[u.O % 2] = key
        return 0, (llid, u.O, key)

    def retry(self, llid):
        number, u = self.ahead(llid, True), self.group(llid) or self.unit(llid)
        if number or u.O == u.A:
            return number or 8, NO_MESSAGE
        return 0, (llid, u.O, u.keys[u.O % 2])

    def acknowledge_group(self, g, answer):
        if answer.kind == 1:
            return 2
        place = self.place(answer.unit) if answer.named == 1 else None
        if place not in g.used() or answer.kind != 2 or g.O < 1 or answer.number != g.O:
            return 8
        g.marks[g.used().index(place)] = 1
        return 0

    def acknowledge(self, llid, answer):
        number, u, g = self.ahead(llid, True), self.unit(llid), self.group(llid)
        if number:
            return number
        if g:
            return self.acknowledge_group(g, answer)
        if answer.named != 0:
            return 8
        if answer.kind == 1 and u.sent:
            u.clocked = 1
        elif answer.kind == 2 and u.O >= 1 and answer.number == u.O:
            u.mark = 1
        else:
            return 8
        return 0

    def send_number(self, llid, channel, payload, out):
        if not self.valid():
            return 1
        if misfit(payload, out):
            return 14
        if channel not in (0x00, 0x01):
            return 1
        g = self.group(llid)
        u = g or self.unit(llid)
        if u is None:
            return 2
        if not g and (u.switches() or u.A >= 1) and not u.clocked:
            return 5
        if self.tick < self.free[channel]:
            return 12
        return 13 if not u.switches() and u.A >= 1 and old(u, self.tick) else 0

    def send(self, llid, channel, payload, out):
        number = self.send_number(llid, channel, payload, out)
        if number:
            return number, NO_HEADER, 0, out
        g = self.group(llid)
        u = g or self.unit(llid)
        if u.switches():
            u.A, u.flag, u.noted = u.O, 0, 0
            if g:
                g.keys[1 - g.A % 2] = bytes(16)
        if u.A >= 1 and not u.noted:
            u.noted, u.first = 1, self.tick
        self.free[channel] = self.tick + len(payload) // 9 + 1
        sealed, count = seal(u.keys[u.A % 2] if u.A else None, channel, self.mac, self.clock, payload)
        return 0, (channel, llid, int(u.A > 0), u.A % 2, self.clock % 64), count, sealed

    def receive_number(self, header, octets, out):
        _, llid, enabled, enckey, epam = header
        if not self.valid():
            return 1
        if misfit(octets, out):
            return 14
        if not good_header(header, 0x80):
            return 1
        if self.group(llid):
            return 20
        u = self.unit(llid)
        if u is None:
            return 2
        if epam != self.clock % 64:
            return 10
        if not enabled:
            return 11 if u.C > 0 else 0
        known = u.C >= 1 and enckey == u.C % 2 or u.A == u.C + 1 and enckey == u.A % 2
        return 0 if known else 9

    def receive(self, header, octets, out):
        number = self.receive_number(header, octets, out)
        if number:
            return number, 0, out
        channel, llid, enabled, enckey, _ = header
        u = self.unit(llid)
        if enabled and not (u.C >= 1 and enckey == u.C % 2):
            u.C, u.keys[1 - u.A % 2] = u.A, bytes(16)
        opened, count = seal(u.keys[enckey] if enabled else None, channel, u.named.mac, self.clock, octets)
        return 0, count, opened


def fresh_olt(mac, clock):
    return (1, Olt()) if mac >= 2**48 or clock >= TURN else (0, Olt(mac, clock))
