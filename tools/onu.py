"""A unit with the groups that it joined, written from document 01, from document 02 (C-14, C-16) and the decisions on both. Shares no code
with the engine."""
from ends import CHANGES, LAST, LOCAL, NEAR, NO_ANSWER, NO_HEADER, TOP, TURN, Answer, Named, good_header, old
from sealing import misfit, seal


class Joined:
    """A group that a unit joined: a, whether its key is held (`kept`) and whether that of a + 1 is (`held`)."""

    def __init__(self, llid):
        self.llid, self.a, self.held, self.kept, self.keys = llid, 0, 0, 0, [bytes(16), bytes(16)]

    def valid(self):
        return max(self.held, self.kept) <= 1 and self.a + self.held <= TOP and not (self.kept and self.a == 0)

    def numbers(self):
        """Those of the keys that are held."""
        return [self.a] * self.kept + [self.a + 1] * self.held

    def take(self, number, key):
        """Any number above those held, which tells that the one before it is in use; or the same again. Else 8."""
        if number in self.numbers() and self.keys[number % 2] == key:
            return 0
        if number <= max(self.numbers(), default=0):
            return 8
        self.kept = int(number - 1 in self.numbers())
        self.keys[1 - number % 2] = self.keys[1 - number % 2] if self.kept else bytes(16)
        self.a, self.held, self.keys[number % 2] = number - 1, 1, key
        return 0

    def number_of(self, enckey):
        return next((n for n in self.numbers() if n % 2 == enckey), None)

    def use(self, number):
        """The key comes into use, if it is the next."""
        if number == self.a + 1:
            self.a, self.kept, self.held, self.keys[1 - number % 2] = number, 1, 0, bytes(16)


class Onu:
    """`time` is LocalTime while unsynced, and Tx, whose low 32 bits are LocalTime, once synced. Travel is a signed number here: `first` is the
    travel of the first send, `spent` the least that is past the end of every enciphered send, and `bar` what that was at the last change."""

    def __init__(self, named=None, oltmac=0, time=0):
        self.named, self.oltmac, self.time, self.rx, self.synced = named or Named(0, []), oltmac, time, 0, 0
        self.tick, self.free, self.a, self.held, self.keys = 0, [0, 0], 0, 0, [bytes(16), bytes(16)]
        self.noted = self.first = self.changes = 0
        self.spent = self.bar = -CHANGES
        self.joined, self.joinedcount = [Joined(0) for _ in range(4)], 0

    def group(self, llid):
        return next((g for g in self.joined[:self.joinedcount] if g.llid == llid), None)

    def travel(self):
        return self.tick + self.changes

    def valid(self):
        groups = self.joined[:self.joinedcount]
        llids = self.named.llids() + [g.llid for g in groups]
        return (self.joinedcount <= 4 and all(g.valid() for g in groups) and len(set(llids)) == len(llids)
                and self.named.in_range() and self.oltmac < 2**48 and self.tick <= LAST
                and max(self.synced, self.held, self.noted) <= 1 and self.rx < TURN and self.time < (TURN if self.synced else LOCAL)
                and self.a + self.held <= TOP and abs(self.changes) <= CHANGES and max(self.free) <= LAST + 4194304)

    def join(self, llid):
        if not self.valid():
            return 1
        if llid in self.named.llids() or self.group(llid):
            return 3
        if self.joinedcount == 4:
            return 4
        self.joined[self.joinedcount] = Joined(llid)
        self.joinedcount += 1
        return 0

    def advance(self, n):
        if not self.valid():
            return 1
        if self.tick + n > LAST:
            return 17
        self.tick, self.time = self.tick + n, (self.time + n) % (TURN if self.synced else LOCAL)
        self.rx = (self.rx + n) % TURN if self.synced else self.rx
        return 0

    def new_time(self, time):
        if not self.valid() or time >= LOCAL:
            return 1
        change = (time - self.time + LOCAL // 2) % LOCAL - LOCAL // 2
        if abs(change) > NEAR:
            return 1
        if abs(self.changes + change) > CHANGES:
            return 17
        self.changes, self.bar = self.changes + change, self.spent
        self.synced, self.time, self.rx = 0, time, 0
        return 0

    def clock_message(self, stamps):
        if not self.valid() or max(stamps) >= TURN:
            return 1, NO_ANSWER
        rx, tx = stamps
        # the source's loop, in strides as long as no low half can match within them
        raised = 0
        while (tx + raised) % LOCAL != self.time % LOCAL:
            raised += (self.time - tx - raised) % LOCAL
        self.synced, self.time, self.rx = 1, (tx + raised) % TURN, (rx + raised) % TURN
        return 0, Answer(1, 0)

    def key_message(self, message):
        llid, number, key = message
        if not self.valid():
            return 1, NO_ANSWER
        g = self.group(llid)
        if not g and llid not in self.named.llids():
            return 2, NO_ANSWER
        if not self.synced:
            return 5, NO_ANSWER
        if g:
            return (8, NO_ANSWER) if g.take(number, key) else (0, Answer(2, number, 1, self.named.llids()[0]))
        if number == self.a + 1 and not self.held:
            self.held, self.keys[number % 2] = 1, key
        elif not (number in (self.a, self.a + self.held) and number >= 1 and self.keys[number % 2] == key):
            return 8, NO_ANSWER
        return 0, Answer(2, number)

    def send_number(self, llid, channel, payload, out):
        if not self.valid():
            return 1
        if misfit(payload, out):
            return 14
        if channel not in (0x80, 0x81):
            return 1
        if self.group(llid):
            return 20
        if llid not in self.named.llids():
            return 2
        if self.a >= 1 and not self.synced:
            return 5
        if self.tick < self.free[channel - 0x80] or self.a >= 1 and self.travel() < self.bar:
            return 12
        return 13 if self.a >= 1 and old(self, self.travel()) else 0

    def send(self, llid, channel, payload, out):
        number = self.send_number(llid, channel, payload, out)
        if number:
            return number, NO_HEADER, 0, out
        if self.a >= 1:
            self.noted, self.first = 1, self.first if self.noted else self.travel()
            self.spent = max(self.spent, self.travel() + len(payload) // 9 + 1)
        self.free[channel - 0x80] = self.tick + len(payload) // 9 + 1
        sealed, count = seal(self.keys[self.a % 2] if self.a else None, channel, self.named.mac, self.time, payload)
        return 0, (channel, llid, int(self.a > 0), self.a % 2, self.time % 64), count, sealed

    def receive_number(self, header, octets, out):
        _, llid, enabled, enckey, epam = header
        if not self.valid():
            return 1
        if misfit(octets, out):
            return 14
        if not good_header(header, 0x00):
            return 1
        g = self.group(llid)
        if not g and llid not in self.named.llids():
            return 2
        if self.synced and epam != self.rx % 64:
            return 10
        if enabled and not self.synced:
            return 5
        if not enabled:
            return 11 if (g or self).a > 0 else 0
        if g:
            return 0 if g.number_of(enckey) is not None else 9
        known = self.a >= 1 and enckey == self.a % 2 or self.held and enckey == (self.a + 1) % 2
        return 0 if known else 9

    def receive(self, header, octets, out):
        number = self.receive_number(header, octets, out)
        if number:
            return number, 0, out
        channel, llid, enabled, enckey, _ = header
        g = self.group(llid)
        if g and enabled:
            g.use(g.number_of(enckey))
        elif enabled and not (self.a >= 1 and enckey == self.a % 2):
            self.a, self.held, self.noted, self.first = self.a + 1, 0, 0, 0
            self.keys[1 - self.a % 2] = bytes(16)
        opened, count = seal((g or self).keys[enckey] if enabled else None, channel, self.oltmac, self.rx, octets)
        return 0, count, opened


def fresh_onu(named, oltmac, time):
    if not named.in_range() or oltmac >= 2**48 or time >= LOCAL:
        return 1, Onu()
    return (3, Onu()) if named.twice() else (0, Onu(named.kept(), oltmac, time))
