#!/usr/bin/env python3
"""What the program `test_calls` must print: every exported call, played on the ends of tools/olt.py and tools/onu.py, the reader of
tools/capture_blocks.py, the class of tools/class_cases.py and the key exchange of tools/test_xgpon.py.

usage: tools/test_calls.py > crates/test_calls/stdout
Shares no code with the engine.
"""
import capture_blocks as reader
from capture_blocks import CLEAR, ONE
from class_cases import HEADING, call_number
from ends import LOCAL, TURN, Named
from olt import fresh_olt
from onu import fresh_onu
from sealing import seal
import test_xgpon as xgpon

OLT_MAC, UNIT = 0x020000000001, Named(0x020000000002, [5, 6])
PAYLOAD = bytes([0x00, *range(0x10, 0x18), 0x81, *range(0x20, 0x28), 0x01, *range(0x30, 0x38)])
LENT = b"\xaa" * 27
KEY = bytes.fromhex("2b7e151628aed2a6abf7158809cf4f3c")


def show(call, number, rest=""):
    print(f"jazmotip_{call} {number}{rest}")


def passed(count, octets):
    return f" {count} {octets.hex()}"


# ---- both ends: 150 ticks down, 100 up, the OLT's clock 1000 ticks before its turn

class Line:
    def __init__(self):
        number, self.olt = fresh_olt(OLT_MAC, TURN - 1000)
        show("olt_fresh", number)
        for _ in range(2):
            show("olt_register", self.olt.register(UNIT, 250, 1000))
        number, self.onu = fresh_onu(UNIT, OLT_MAC, (TURN - 900) % LOCAL)
        show("onu_fresh", number)

    def olt_advance(self, n):
        number = self.olt.advance(n)
        show("olt_advance", number, f" {self.olt.tick} {self.olt.clock:012x}")

    def onu_advance(self, n):
        number = self.onu.advance(n)
        show("onu_advance", number, f" {self.onu.tick} {self.onu.rx:012x} {self.onu.time:012x}")

    def advance(self, n):
        self.olt_advance(n)
        self.onu_advance(n)

    def send(self, end, llid, channel):
        number, header, count, octets = getattr(self, end).send(llid, channel, PAYLOAD, LENT)
        i, l, e, k, p = header
        show(f"{end}_send", number, f" {i:02x} {l:04x} {e} {k} {p:02x}" + passed(count, octets))
        return header, octets

    def receive(self, end, envelope):
        number, count, octets = getattr(self, end).receive(*envelope, LENT)
        show(f"{end}_receive", number, passed(count, octets))

    def down(self, llid, channel, delay=150):
        envelope = self.send("olt", llid, channel)
        self.advance(delay)
        self.receive("onu", envelope)

    def up(self, llid, channel, delay=100):
        envelope = self.send("onu", llid, channel)
        self.advance(delay)
        self.receive("olt", envelope)

    def clock(self):
        show("olt_capture", self.olt.capture(5))
        self.advance(40)
        number, stamps = self.olt.clock_send(6)
        show("olt_clock_send", number, f" {stamps[0]:012x} {stamps[1]:012x}")
        self.advance(150)
        number, ack = self.onu.clock_message(stamps)
        show("onu_clock_message", number, f" {self.onu.rx:012x} {self.onu.time:012x} {ack[0]} {ack[1]}")
        self.advance(100)
        show("olt_acknowledge", self.olt.acknowledge(5, ack))

    def offered(self, call, number, message):
        show(call, number, f" {message[0]} {message[1]} {message[2].hex()}")
        return message

    def key(self):
        self.offered("olt_offer", *self.olt.offer(5, KEY))
        message = self.offered("olt_retry", *self.olt.retry(6))
        self.advance(150)
        number, ack = self.onu.key_message(message)
        show("onu_key_message", number, f" {ack[0]} {ack[1]}")
        self.advance(100)
        show("olt_acknowledge", self.olt.acknowledge(6, ack))

    def group(self):
        """A group of the unit, clear and sealed; upwards both ends refuse its LLID."""
        for named in ([], [6, 5], [6], [6]):
            show("olt_register_group", self.olt.register_group(7, 1000, named))
        for _ in range(2):
            show("onu_join", self.onu.join(7))
        self.down(7, 0x00)
        message = self.offered("olt_offer", *self.olt.offer(7, KEY))
        self.advance(150)
        number, ack = self.onu.key_message(message)
        show("onu_key_message", number, f" {ack.kind} {ack.named} {ack.unit} {ack.number}")
        self.advance(100)
        show("olt_acknowledge", self.olt.acknowledge(7, ack))
        self.advance(1000)
        self.down(7, 0x01)
        _, octets = self.send("onu", 7, 0x80)
        self.receive("olt", ((0x80, 7, 0, 0, 0), octets))

    def new_time(self, time):
        number = self.onu.new_time(time)
        show("onu_new_time", number, f" {self.onu.rx:012x} {self.onu.time:012x}")

    def path(self):
        """10 ticks down, 20 up: LocalTime goes back by 80, and the unit waits until its Tx clock has passed its last envelope."""
        self.send("onu", 5, 0x80)
        for llid, trip in ((7, 30), (5, 1000001), (5, 30)):
            show("olt_measure", self.olt.measure(llid, trip))
        for time in (LOCAL, (self.olt.clock + 20) % LOCAL):
            self.new_time(time)
        self.send("olt", 5, 0x00)
        self.send("onu", 5, 0x80)
        show("olt_capture", self.olt.capture(5))
        number, stamps = self.olt.clock_send(5)
        show("olt_clock_send", number, f" {stamps[0]:012x} {stamps[1]:012x}")
        self.advance(10)
        number, ack = self.onu.clock_message(stamps)
        show("onu_clock_message", number, f" {self.onu.rx:012x} {self.onu.time:012x} {ack[0]} {ack[1]}")
        self.send("onu", 6, 0x81)
        self.advance(20)
        show("olt_acknowledge", self.olt.acknowledge(5, ack))
        self.advance(54)
        self.up(6, 0x81, 20)
        self.down(5, 0x00, 10)

    def refusals(self):
        show("olt_capture", self.olt.capture(9))
        self.offered("olt_retry", *self.olt.retry(5))
        self.olt_advance(2**62)
        show("olt_fresh", fresh_olt(TURN, 0)[0])
        self.send("onu", 9, 0x80)
        self.onu_advance(2**62)
        show("onu_fresh", fresh_onu(UNIT, TURN, 0)[0])


def ends():
    line = Line()
    line.down(5, 0x00)
    line.up(5, 0x80)
    line.clock()
    line.key()
    line.advance(1000)
    line.down(5, 0x01)
    line.up(6, 0x81)
    line.refusals()
    line.group()
    line.path()


# ---- payloads

def payloads():
    print(f"jazmotip_expand_key {b''.join(reader.expanded(KEY)).hex()}")
    sealed, count = seal(KEY, 0x81, OLT_MAC, 0x41, PAYLOAD)
    for call, refused in (("seal", LENT), ("seal_expanded", LENT), ("seal_in_place", PAYLOAD), ("seal_expanded_in_place", PAYLOAD)):
        show(call, 0, passed(0, PAYLOAD))
        show(call, 0, passed(count, sealed))
        show(call, 1, passed(0, refused))
    print(f"jazmotip_count {count}")


# ---- capture blocks

def directory_row(block):
    number, pair, pairs = reader.directory(block)
    show("capture_directory", number, f" {pair} {len(pairs)}")


def verdict_of(verdicts, block, k):
    number, pair, pairs = reader.directory(block)
    enabled, enckey, clock = 0, 0, 0
    if 1 <= k <= len(pairs):
        number, taken = verdicts[k - 1]
        flags = reader.records(block)[k - 1][4]
        if number == 0 and flags & 1:
            enabled, enckey, clock = 1, flags >> 1, taken
    else:
        number = number or 1
    return number, f" {pair} {enabled} {enckey} {clock:012x}"


def verdict_row(settings, block, k):
    show("capture_verdict", *verdict_of(reader.exact(settings, block), block, k))


def verdicts_of(verdicts, block, output):
    number, pair, pairs = reader.directory(block)
    if len(output) != 256:
        number, pair, verdicts = 14, 0, []
    numbers = bytes(number for number, _ in verdicts)
    return number, f" {pair} {len(verdicts)}", f" {(numbers + output[len(numbers) :])[:4].hex()}"


def verdicts_row(settings, block, output):
    number, told, octets = verdicts_of(reader.exact(settings, block), block, output)
    show("capture_verdicts", number, told + octets)


def payload_row(block, k):
    number, pair, octets = reader.payload(block, k)
    offset = 0 if number else reader.directory(block)[2][k - 1][0] + 16
    show("capture_payload", number, f" {pair} {offset} {len(octets)}")


def open_row(settings, block):
    number, pair, count, octets = reader.opened(settings, block, b"\xaa" * 59)
    show("capture_open", number, f" {pair}" + passed(count, octets))


# ---- capture blocks whose clocks are known nearly (02, C-18)

def near_rows(settings, block):
    verdicts, (smallest, largest) = reader.nearly(settings, block)
    show("capture_verdict_near", *verdict_of(verdicts, block, 2))
    number, told, octets = verdicts_of(verdicts, block, b"\xaa" * 256)
    show("capture_verdicts_near", number, f"{told} {smallest} {largest}{octets}")
    number, pair, count, octets = reader.opened(settings, block, b"\xaa" * 59, verdicts)
    show("capture_open_near", number, f" {pair} {smallest} {largest}" + passed(count, octets))
    text = reader.listing(settings, block, verdicts)
    print(f"jazmotip_capture_list_near {len(text)}\n{text}", end="")


def slipped(first, second):
    """The two records with other octets last in their clocks."""
    octets = bytearray(reader.block(CLEAR, ONE))
    octets[18 + 11], octets[34 + 11] = first, second
    return bytes(octets)


def near_blocks():
    settings = reader.settings(3)
    for first, second in ((0x41, 0x41), (0x5A, 0x52), (0x5A, 0x3A)):
        near_rows(settings, slipped(first, second))
    near_rows(settings, reader.block(CLEAR, ONE, pairs=[(18, 16), (35, 25)]))


def blocks():
    settings, good = reader.settings(3), reader.block(CLEAR, ONE)
    directory_row(good)
    directory_row(reader.block(CLEAR, ONE, pairs=[(19, 16), (34, 25)]))
    directory_row(reader.block(CLEAR, ONE, pairs=[(18, 16), (35, 25)]))
    directory_row(reader.block(CLEAR, ONE, pairs=[(18, 17), (35, 25)]))
    directory_row(reader.block(CLEAR, reader.captured(reader.quanta(1), eqs=2)))
    for k in (1, 2, 3):
        verdict_row(settings, good, k)
    for output in (b"\xaa" * 256, b"\xaa" * 255):
        verdicts_row(settings, good, output)
    for k in (1, 2, 3):
        payload_row(good, k)
    open_row(settings, good)
    broken = reader.block(CLEAR, ONE, pairs=[(18, 16), (35, 25)])
    verdict_row(settings, broken, 1)
    verdicts_row(settings, broken, b"\xaa" * 256)
    payload_row(broken, 1)
    open_row(settings, broken)
    text = reader.listing(*reader.PAPER)
    print(f"jazmotip_capture_list {len(text)}\n{text}", end="")


# ---- the reader of a class of one set and two users (02, C-19)

def cipher_runs(octets):
    """Of a payload: one for each two EQs that are not control characters alone."""
    controls = octets[::9]
    return sum(any(control != 0xFF for control in controls[i : i + 2]) for i in range(0, len(controls), 2))


def hidden_block(block):
    """All of its records as zeros but for their EQs."""
    octets = bytearray(block)
    for offset, length in reader.directory(block)[2]:
        octets[offset : offset + 12] = bytes(12)
        octets[offset + 16 : offset + length] = bytes(length - 16)
    return bytes(octets)


def class_call(user, rights, block):
    """Number, pair, and the rights of the user, 0 if it is refused."""
    number = call_number(1, 2, user, reader.settings(3), rights)
    if number:
        return number, 0, 0
    number, pair, _ = reader.directory(block)
    return number, pair, 0 if number else rights[user - 1]


def class_open_row(call, user, rights, block, verdicts, corrections=None):
    number, pair, right = class_call(user, rights, block)
    count, runs, expansions, octets = 0, 0, 0, b"\xaa" * 59 if number else block if right & 1 else hidden_block(block)
    if right & 2:
        _, _, count, octets = reader.opened(reader.settings(3), block, b"\xaa" * 59, verdicts)
        sealed = [r for r, (n, _) in zip(reader.records(block), verdicts) if n == 0 and r[4] & 1]
        runs, expansions = sum(cipher_runs(r[16:]) for r in sealed), 2
    told = "" if corrections is None else " {} {}".format(*(corrections if right & 3 else (0, 0)))
    show(call, number, f" {pair} {expansions} {runs}{told}" + passed(count, octets))


def class_list_row(call, user, rights, block, verdicts):
    number, pair, right = class_call(user, rights, block)
    if number:
        text = f"{HEADING}refused {reader.numbered(number, pair)}\n"
    elif right & 3 == 0:
        text = HEADING + "".join(f"{k} -\n" for k in range(1, len(verdicts) + 1))
    else:
        text = reader.listing(reader.settings(3), block, verdicts)
        if not right & 2:
            text = text.replace(" open\n", " seen\n").replace(" refused 9\n", " seen\n")
    print(f"jazmotip_{call} {len(text)}\n{text}", end="")


def class_rows(user, rights, block):
    exact, (near, corrections) = reader.exact(reader.settings(3), block), reader.nearly(reader.settings(3), block)
    class_open_row("class_open", user, rights, block, exact)
    class_open_row("class_open_near", user, rights, block, near, corrections)
    class_list_row("class_list", user, rights, block, exact)
    class_list_row("class_list_near", user, rights, block, near)


def load_row(user, llid, index):
    sets, rights = reader.settings(3), [3, 4]
    number = call_number(1, 2, user, sets, rights) or (1 if index > 1 else 24 if llid != 5 or not rights[user - 1] & 4 else 0)
    if number == 0:
        sets = bytearray(sets)
        sets[0] |= 1 << index
        sets[1 + 16 * index : 17 + 16 * index] = KEY
    show("class_load", number, f" {sets.hex()}")


def class_blocks():
    good, broken = reader.block(CLEAR, ONE), reader.block(CLEAR, ONE, pairs=[(18, 16), (35, 25)])
    for user, rights in ((1, [3, 4]), (1, [1, 4]), (2, [3, 4]), (1, [2, 8])):
        class_rows(user, rights, good)
    class_rows(3, [3, 4], broken)
    class_rows(1, [3, 4], broken)
    class_rows(1, [2, 0], slipped(0x5A, 0x52))
    for user, llid, index in ((2, 5, 0), (1, 5, 0), (2, 5, 2), (2, 6, 0), (0, 5, 0)):
        load_row(user, llid, index)


# ---- the key exchange on an XG-PON line

KINDS = (None, xgpon.NEW, xgpon.EXISTING, "TK1 expires", "TK2 expires", "TK3 expires", xgpon.BEGIN, xgpon.TO_SEND, xgpon.REKEY, xgpon.CHECK)


def flags(acts, sign):
    return " ".join(str(int(f"{sign}TK{n}" in acts)) for n in (1, 2, 3))


def step_row(lent, kind, index=None):
    """The exchange that the step leaves."""
    olt = xgpon.Olt(*lent)
    if 1 <= kind < len(KINDS):
        olt.step(KINDS[kind], index)
    else:
        olt.number = 1
    message = [f"{k} {act.split()[1]}" for act in olt.acts for k, name in enumerate(("Generate", "Confirm"), 1) if act.startswith(name)]
    shown = [*message, "0 0"][0]
    show("xgpon_step", olt.number, f" {olt.state} {olt.old} {olt.new} {shown} {flags(olt.acts, '+')} {flags(olt.acts, '-')}")
    return olt.state, olt.old, olt.new


def key_rows(lent):
    print(f"jazmotip_xgpon_sent_under {xgpon.valid(xgpon.SENT_UNDER, *lent)}")
    print(f"jazmotip_xgpon_received_under {xgpon.valid(xgpon.RECEIVED_UNDER, *lent)}")


def key_exchange():
    exchange = (0, 0, 0)
    print("jazmotip_xgpon_fresh 0 0 0")
    for kind, index in ((6, 0), (1, 2), (1, 1)):
        exchange = step_row(exchange, kind, index)
    key_rows(exchange)
    for kind, index in ((7, 0), (2, 1)):
        exchange = step_row(exchange, kind, index)
    active = exchange
    for kind, index in ((9, 0), (8, 0), (4, 0), (3, 0), (1, 2), (7, 0)):
        exchange = step_row(exchange, kind, index)
    key_rows(exchange)
    for kind in (5, 3):
        exchange = step_row(exchange, kind)
    step_row(active, 0)
    step_row(active, 10)
    step_row((5, 0, 1), 6)
    key_rows((5, 0, 1))
    print("jazmotip_xgpon_recommended_starts " + " ".join(str(start) for start in xgpon.STARTS.values()))


if __name__ == "__main__":
    ends()
    payloads()
    blocks()
    near_blocks()
    class_blocks()
    key_exchange()
