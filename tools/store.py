#!/usr/bin/env python3
"""Payloads and capture blocks for the store (02, C-12), and what each must give.

usage: store.py write     writes the test files of the program `test_store`
       store.py check     says whether those files are what this script makes (exit status 1 if not)
       store.py sizes     says what samples and a made-up day of traffic come to under zlib, raw and rearranged
"""
import pathlib
import random
import struct
import sys
import zlib

from capture_blocks import block, directory, record

ROOT = pathlib.Path(__file__).resolve().parent.parent
USED = b"\xa5"
REARRANGE, RESTORE, REARRANGE_BLOCK, RESTORE_BLOCK = range(4)
MOST_EQS = 4_194_303


# ---------------------------------------------------------------- payloads and blocks

def rearranged(payload):
    """Every ninth octet from each of the first nine on."""
    return b"".join(payload[column::9] for column in range(9))


def restored(planes):
    eqs = len(planes) // 9
    return bytes(octet for eq in zip(*(planes[eqs * plane:eqs * (plane + 1)] for plane in range(9))) for octet in eq)


def payload_call(move, octets, lent):
    if len(octets) % 9 != 0 or len(octets) > 9 * MOST_EQS or lent != len(octets):
        return (14, 0), USED * lent
    return (0, 0), move(octets)


def block_call(move, octets, lent):
    if lent != len(octets):
        return (14, 0), USED * lent
    number, pair, pairs = directory(octets)
    if number != 0:
        return (number, pair), USED * lent
    made = bytearray(octets)
    for offset, size in pairs:
        made[offset + 16:offset + size] = move(octets[offset + 16:offset + size])
    return (0, 0), bytes(made)


# ---------------------------------------------------------------- the cases

def drawn(eqs, seed):
    return random.Random(seed).randbytes(9 * eqs)


def numbered_eqs(eqs):
    """EQ e holds e in the high and the octet's place in the low half."""
    return bytes(16 * e + c for e in range(eqs) for c in range(9))


def payload_cases():
    for eqs in (0, 1, 2, 3):
        yield f"{eqs} EQs", numbered_eqs(eqs), None
    for eqs in (63, 64, 65, 511, 512, 513, 1500, 7000):
        yield f"{eqs} EQs", drawn(eqs, eqs), None
    yield "10 octets", bytes(range(10)), None
    yield "8 octets", bytes(range(8)), None
    yield "output one EQ short", numbered_eqs(2), 9
    yield "output one EQ long", numbered_eqs(2), 27
    yield "no output", numbered_eqs(1), 0
    yield "nothing into one EQ", b"", 9


def block_cases():
    eqs = [0, 1, 2, 3, 63, 64, 65]
    mixed = block(*(record(drawn(e, e), clock=64 * e) for e in eqs))
    yield "empty block", block(), None
    yield "records of " + " ".join(map(str, eqs)) + " EQs", mixed, None
    yield "one record of 7278 EQs", block(record(drawn(7278, 1), clock=1)), None
    yield "256 records", block(*(record(drawn(i % 20, i), clock=i) for i in range(256))), None
    yield "output one octet short", mixed, len(mixed) - 1
    yield "output one octet long", mixed, len(mixed) + 1
    yield "output short, block cut", mixed[:-1], len(mixed)
    yield "block cut", mixed[:-1], None
    yield "directory cut", mixed[:20], None
    yield "no block", b"", None
    yield "no block into one octet", b"", 1
    two = bytearray(mixed)
    two[13] += 1
    yield "second offset one high", bytes(two), None
    three = bytearray(mixed)
    at = struct.unpack_from(">I", mixed, 18)[0]
    three[at + 15] += 1
    yield "third record an EQ too many", bytes(three), None


def cases():
    for name, there, back, made in (("payload", REARRANGE, RESTORE, payload_cases), ("block", REARRANGE_BLOCK, RESTORE_BLOCK, block_cases)):
        for title, octets, lent in made():
            for call, verb in ((there, "rearranged"), (back, "restored")):
                yield f"{name}, {title}, {verb}", call, octets, len(octets) if lent is None else lent


def answer(call, octets, lent):
    made_by = payload_call if call < REARRANGE_BLOCK else block_call
    return made_by(restored if call % 2 else rearranged, octets, lent)


def files():
    given, expected = b"", ""
    for title, call, octets, lent in cases():
        given += struct.pack(">BBII", call, len(title), lent, len(octets)) + title.encode() + octets
        (number, pair), output = answer(call, octets, lent)
        expected += f"{title}: {number} {pair} {zlib.adler32(output):08x}"
        expected += (f" {output.hex()}" if len(output) <= 27 else "") + "\n"
    folder = ROOT / "crates" / "test_store"
    return {folder / "stdin": given, folder / "stdout": expected.encode()}


def check_inverse():
    """The tool's own two ways undo each other."""
    for eqs in (0, 1, 2, 3, 63, 64, 65, 1000):
        octets = drawn(eqs, eqs + 1)
        assert restored(rearranged(octets)) == octets == rearranged(restored(octets))


# ---------------------------------------------------------------- what the store comes to

IDLE = bytes([0xFF] + 8 * [0x07])
START, STOP = 0xFB, 0xFD
TEXT = b"GET /video/segment HTTP/1.1 Host: cdn.example Range: bytes=0-65535 "


def drawn_body(draw, size):
    """As of a connection that is enciphered end to end."""
    return draw.randbytes(size)


def text_body(draw, size):
    at = draw.randrange(len(TEXT))
    return (TEXT * (size // len(TEXT) + 2))[at:at + size]


def frame(draw, number, body):
    """An Ethernet frame with IPv4 and TCP of one of eight connections, in EQs: start, data, and the stop among the last octets."""
    peer, size = number % 8, draw.choice((40, 52, 576, 1500))
    octets = bytes.fromhex("020000000001") + bytes([2, 0, 0, 0, 0, peer]) + b"\x08\0"
    octets += struct.pack(">BBHHHBBHII", 0x45, 0, size, number % 65536, 0x4000, 64, 6, draw.randrange(65536), 0x0A000001, 0xC0A80000 + peer)
    octets += struct.pack(">HHIIHHHH", 443, 50000 + peer, 1460 * number % 2**32, 77 * number % 2**32, 0x5018, 501, draw.randrange(65536), 0)
    octets += body(draw, size - 40) + draw.randbytes(4)
    eqs = bytes([1, START, 0x55, 0x55, 0x55, 0x55, 0x55, 0x55, 0xD5])
    for at in range(0, len(octets), 8):
        part = octets[at:at + 8]
        if len(part) == 8:
            eqs += b"\0" + part
        else:
            eqs += bytes([0xFF << len(part) & 0xFF]) + part + bytes([STOP]) + bytes(7 * [0x07])[:7 - len(part)]
    return eqs


def idle_heavy(eqs, seed, body):
    """EQs of a line that is mostly at rest: up to 1,500 idle EQs, one to four frames, and again."""
    draw, octets, number = random.Random(seed), bytearray(), 1000 * seed
    while len(octets) < 9 * eqs:
        octets += IDLE * draw.randrange(1501)
        for _ in range(draw.randrange(1, 5)):
            octets += frame(draw, number, body)
            number += 1
    return bytes(octets[:9 * eqs])


def day_of_blocks(body):
    """A block each minute of a day, of eight clear records of 900 EQs."""
    for minute in range(24 * 60):
        yield block(*(record(idle_heavy(900, 8 * minute + i, body), clock=900 * (8 * minute + i)) for i in range(8)))


def print_sizes(name, octets_raw, octets_moved):
    raw, moved = len(zlib.compress(octets_raw)), len(zlib.compress(octets_moved))
    print(f"| {name} | {len(octets_raw):,} | {raw:,} | {moved:,} | {moved / raw:.2f} |")


def show_sizes():
    print("| | octets | zlib, raw | zlib, rearranged | of raw |")
    print("|---|---:|---:|---:|---:|")
    sample = (ROOT / "samples" / "line.capture").read_bytes()[41:]
    print_sizes("the sample's block", sample, block_call(rearranged, sample, len(sample))[1])
    for name, body in (("enciphered connections", drawn_body), ("one text again and again", text_body)):
        blocks = list(day_of_blocks(body))
        moved = [block_call(rearranged, octets, len(octets))[1] for octets in blocks]
        print_sizes(f"a day of idle-heavy traffic, {name}: 1,440 blocks", b"".join(blocks), b"".join(moved))
    counters = b"".join(b"\0" + (10**12 + 37 * e).to_bytes(8, "big") for e in range(100_000))
    print_sizes("100,000 EQs of a number that counts up", counters, rearranged(counters))
    drawn_octets = drawn(100_000, 3)
    print_sizes("100,000 EQs of drawn octets", drawn_octets, rearranged(drawn_octets))


# ---------------------------------------------------------------- the script

def main():
    check_inverse()
    if sys.argv[1:] == ["write"]:
        for path, octets in files().items():
            path.write_bytes(octets)
    elif sys.argv[1:] == ["check"]:
        wrong = [str(path) for path, octets in files().items() if not path.exists() or path.read_bytes() != octets]
        sys.exit("not as made: " + ", ".join(wrong) if wrong else 0)
    elif sys.argv[1:] == ["sizes"]:
        show_sizes()
    else:
        sys.exit(__doc__)


main()
