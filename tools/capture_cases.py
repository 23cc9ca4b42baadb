#!/usr/bin/env python3
"""Capture blocks, good, damaged and odd, and what each must give; tools/capture_blocks.py makes and reads them.

usage: capture_cases.py write     writes the test files of the programs `reader` and `test_capture`, and the samples
       capture_cases.py check     says whether those files are what this script makes (exit status 1 if not)
       capture_cases.py show      prints each case: title, octets (long ones cut), and what is expected
"""
import pathlib
import sys
import zlib

from capture_blocks import CLEAR, ONE, PAPER, block, captured, listing, numbered, opened, payload, quanta, record, settings

ROOT = pathlib.Path(__file__).resolve().parent.parent

# ---------------------------------------------------------------- the cases

CASES = []


def case(title, given, octets, ask=1, lent=None):
    """Title, settings, block, the record whose payload is asked for, and the length of the lent output."""
    CASES.append((title, given, octets, ask, len(octets) if lent is None else lent))


TEXT = b"\x00sealed e" + b"\x00nvelopes"
SAMPLE = (
    settings(2),
    block(
        record(clock=0x41),
        record(clock=0x42, flags=1),
        captured(TEXT, clock=0x80),
        captured(b"\x81I opened" + b"\x00 the rec" + b"\x00ording. ", kind=1, channel=0x81, clock=0x123456789ABC),
    ),
)
# the same with an EQ too many in record 3
BROKEN_SAMPLE = (SAMPLE[0], SAMPLE[1].replace(bytes.fromhex("000000000080" "00000002"), bytes.fromhex("000000000080" "00000003")))
GOOD = block(CLEAR, ONE)


def add_call_cases():
    case("the example of 01", *PAPER)
    case("the sample capture", *SAMPLE, ask=3)
    case("the broken sample capture", *BROKEN_SAMPLE, ask=2)
    case("no input at all", b"", b"")
    case("settings of 40 octets", settings()[:40], b"")
    case("settings of 40 octets with a block", settings()[:40], GOOD)
    case("settings of 42 octets with a block", settings() + b"\0", GOOD)
    case("settings alone", settings(), b"")
    case("block of one octet", settings(), b"\0")
    case("empty block", settings(), block(), ask=0)
    case("empty block and one octet", settings(), block() + b"\0")
    case("empty block and a record", settings(), block(CLEAR, count=0))
    case("output one octet short", settings(), GOOD, lent=len(GOOD) - 1)
    case("output one octet long", settings(), GOOD, lent=len(GOOD) + 1)
    case("output short and presence bits 4", settings(4), GOOD, lent=1)
    case("presence bits 4", settings(4), GOOD)
    case("presence bits 4 and a bad directory", settings(4), GOOD[:-1])
    case("presence bits 4 and settings alone", settings(4), b"")
    case("presence bits 255", settings(255), GOOD)
    case("payload of record 0", settings(), GOOD, ask=0)
    case("payload past the last record", settings(), GOOD, ask=3)
    case("payload of a large record number", settings(), GOOD, ask=65535)


def add_directory_cases():
    def broken(title, octets, ask=1):
        case(title, settings(), octets, ask)

    second = 18 + len(CLEAR)
    broken("good directory of two", GOOD, 2)
    broken("one octet too many", GOOD + b"\0", 9)
    broken("one octet too few", GOOD[:-1])
    broken("first offset one low", block(CLEAR, ONE, pairs=[(17, 16), (second, 25)]))
    broken("first offset one high", block(CLEAR, ONE, pairs=[(19, 16), (second, 25)]))
    broken("second offset one low", block(CLEAR, ONE, pairs=[(18, 16), (second - 1, 25)]))
    broken("second offset one high", block(CLEAR, ONE, pairs=[(18, 16), (second + 1, 25)]))
    broken("pairs not in order of offset", block(CLEAR, ONE, pairs=[(second, 25), (18, 16)]))
    broken("a pair twice", block(CLEAR, ONE, pairs=[(18, 16), (18, 16)]))
    broken("first length one short", block(CLEAR, ONE, pairs=[(18, 15), (second - 1, 26)]))
    broken("last length one short", block(CLEAR, ONE, pairs=[(18, 16), (second, 24)]))
    broken("last length one long", block(CLEAR, ONE, pairs=[(18, 16), (second, 26)]))
    broken("length 0", block(b"", pairs=[(10, 0)]))
    broken("length 15", block(CLEAR[:15], pairs=[(10, 15)]))
    broken("one EQ counted and none there", block(record(eqs=1)))
    broken("no EQ counted and one there", block(record(quanta(1), eqs=0)))
    broken("payload of eight octets", block(record(bytes(8), eqs=1)))
    broken("payload of ten octets", block(record(bytes(10), eqs=1)))
    broken("EQs FFFFFFFF, read past a record of 7 octets", block(CLEAR[:7], record(epam=0xFF, clock=0xFFFFFF000000)))
    broken("EQs FFFFFFFF and a length of 16", block(record(eqs=0xFFFFFFFF)))
    broken("9 times EQs is 1 modulo 2^32", block(record(b"\0", eqs=0x38E38E39)))
    broken("length FFFFFFFF", block(CLEAR, pairs=[(10, 0xFFFFFFFF)]))
    broken("offset FFFFFFFF", block(CLEAR, pairs=[(0xFFFFFFFF, 16)]))
    broken("offset FFFFFFF0, ending at 2^32", block(CLEAR, pairs=[(0xFFFFFFF0, 16)]))
    broken("a chain that comes back modulo 2^32", block(CLEAR, CLEAR, pairs=[(18, 0xFFFFFFFE), (16, 34)]))
    broken("count 1 and no directory", b"\0\1")
    broken("count 1 and seven octets", b"\0\1" + bytes(7))
    broken("count 1 and an empty pair", b"\0\1" + bytes(8))
    broken("count one above the pairs", block(CLEAR, ONE, count=3))
    broken("count one below the pairs", block(CLEAR, ONE, count=1))
    broken("count 257", block(*[CLEAR] * 257))
    broken("count 65535", block(CLEAR, count=65535))


def add_pair_cases():
    """Which pair is broken (02, C-11): each cause at the first, a middle and the last pair of three, then two at once."""

    def broken(title, octets, ask=1):
        case(title, settings(), octets, ask)

    good = [(26, 16), (42, 25), (67, 16)]

    def paired(*changed):
        pairs = list(good)
        for k, pair in changed:
            pairs[k] = pair
        return block(CLEAR, ONE, CLEAR, pairs=pairs)

    for k, which in enumerate(("first", "middle", "last")):
        offset, length = good[k]
        broken(f"{which} offset not the chain's", paired((k, (offset + 1, length))))
        broken(f"{which} pair ends past the block", paired((k, (offset, 84 - offset))))
        for title, odd in (("length is 15", CLEAR[:15]), ("length is 0", b""), ("record has an EQ too few", record(quanta(1), eqs=2))):
            records = [CLEAR, ONE, CLEAR]
            records[k] = odd
            broken(f"{which} {title}", block(*records))
    three = block(CLEAR, ONE, CLEAR)
    broken("last pair ends short", three + b"\0", 3)
    broken("last pair ends short, its length being 15", paired((2, (67, 15))))
    broken("three records cut by an octet, and record 0", three[:-1], 0)
    broken("a directory with nothing behind it", block(b"", pairs=[(10, 16)]))
    broken("EQs wrong at 1, offset wrong at 2", block(record(eqs=1), ONE, CLEAR, pairs=[(26, 16), (43, 25), (67, 16)]))
    broken("offset wrong at 1, EQs wrong at 2", block(CLEAR, record(quanta(1), eqs=2), CLEAR, pairs=[(27, 16), (42, 25), (67, 16)]))
    broken("offset and EQs wrong at 2", block(CLEAR, record(quanta(1), eqs=2), CLEAR, pairs=[(26, 16), (43, 25), (67, 16)]))
    broken("EQs wrong at 2 and 3", block(CLEAR, record(quanta(1), eqs=2), record(eqs=1)))
    broken("9 times EQs is 5 modulo 2^32", block(CLEAR, record(bytes(5), eqs=0x1C71C71D)))
    broken("the last of 256 pairs", block(*[CLEAR] * 255, record(eqs=1)), 256)


def add_record_cases():
    def row(title, *records, presence=3, ask=1, **fields):
        case(title, settings(presence, **fields), block(*records), ask)

    row("one clear record", CLEAR)
    row("one clear record with an EQ", record(quanta(1)))
    row("one clear record, no key present", record(quanta(2)), presence=0)
    row("one sealed record without EQs", captured(b""))
    row("one sealed record with an EQ", ONE)
    row(
        "both keys, directions, channels and kinds",
        *[
            captured(quanta(3, first=i), key=i & 1, kind=i >> 1 & 1, channel=(i >> 2 & 1) << 7 | i >> 3, clock=0x1000 + i)
            for i in range(16)
        ],
        ask=16,
    )
    row("odd and even EQs", *[captured(quanta(e), clock=e) for e in range(9)], ask=9)
    row(
        "control octets",
        *[captured(quanta(3, control=c), clock=c) for c in (0x00, 0x01, 0x80, 0x81, 0x7F, 0xFE, 0xAA, 0xFF)],
    )
    row("more than 256 EQs", captured(quanta(515)))
    row("clocks at their ends", captured(quanta(1), clock=0), captured(quanta(1), clock=(1 << 48) - 1), captured(quanta(1), clock=(1 << 48) - 64))
    row("kinds 2 and 255", record(kind=2), record(kind=255), record(quanta(1), kind=2, flags=1))
    row("channel indices outside", *[record(channel=c) for c in (0x02, 0x40, 0x7F, 0x82, 0xC0, 0xFF)])
    row("channel indices inside", *[record(channel=c) for c in (0x00, 0x01, 0x80, 0x81)])
    row("EncKey without EncEnabled", record(quanta(1), flags=2))
    row("unknown flags", *[record(quanta(1), flags=f) for f in (4, 5, 6, 7, 8, 16, 32, 64, 128, 255)])
    row("LLID of another unit", record(llid=6), captured(quanta(1), llid=4), record(llid=0x0500), record(llid=0x0105))
    row("LLIDs 0 and FFFF", record(llid=0), record(llid=0xFFFF))
    row("settings of LLID FFFF", record(llid=0xFFFF), record(), llid=0xFFFF)
    row("EPAM off by one", record(epam=0), record(epam=2), captured(quanta(1), epam=0), captured(quanta(1), epam=2))
    row("EPAM off by 32", captured(quanta(1), epam=33), record(epam=33), record(clock=0x3F, epam=0x1F))
    row("EPAM above 63", record(epam=0x41), captured(quanta(1), epam=0x41), record(epam=0xC1))
    row("EPAM and the sixth bit of the clock", record(clock=0x7F, epam=0x3F), record(clock=0x40, epam=0), record(clock=0x40, epam=0x40))
    row("absent key 0", captured(quanta(2), key=0), captured(quanta(2), key=1), presence=2)
    row("absent key 1", captured(quanta(2), key=0), captured(quanta(2), key=1), presence=1)
    row("both keys absent", captured(quanta(2), key=0), captured(quanta(2), key=1), CLEAR, presence=0)
    row("1 before 2", record(kind=2, llid=6), record(channel=2, llid=6), record(flags=2, llid=6))
    row("1 before 10 and 9", record(flags=7, epam=9), record(kind=3, flags=1, epam=9), presence=0)
    row("2 before 10 and 9", record(llid=6, epam=9), record(llid=6, flags=1, epam=9), record(llid=6, flags=1), presence=0)
    row("10 before 9", record(flags=1, epam=9), record(flags=3, epam=9), presence=0)
    row("opened between refused ones", record(quanta(1), kind=2), ONE, record(quanta(1), llid=6), ONE, record(quanta(1), epam=9), ask=4)
    row("payload of a refused record", record(quanta(2), kind=2), ask=1)
    row("another sender's MAC", captured(quanta(1), mac=bytes.fromhex("fffffffffffe")), mac=bytes.fromhex("fffffffffffe"))
    row("the wrong sender's MAC", captured(quanta(1)), mac=bytes.fromhex("020000000002"))
    before = block(ONE, CLEAR, captured(quanta(4), epam=3), captured(quanta(2), key=0))
    case("a block", settings(), before)
    case("that block, opened, again", settings(), opened(settings(), before, bytes(len(before)))[3])


def add_size_cases():
    kinds = [CLEAR, ONE, captured(quanta(1), key=0, kind=1, channel=0x81), record(llid=7), record(flags=2), record(epam=5)]
    case("256 records", settings(), block(*[kinds[i % 6] for i in range(256)]), ask=256)
    case("256 records, key 0 absent", settings(2), block(*[kinds[(i + 3) % 6] for i in range(256)]), ask=255)
    case("65,534 octets", settings(), block(captured(quanta(7000, control=0xFE)), record(quanta(276))), ask=2)
    case("65,536 octets", settings(), block(record(bytes(65510), eqs=7278)))
    case("65,537 octets", settings(), block(record(bytes(65511))))
    case("65,537 octets and presence bits 4", settings(4), block(record(bytes(65511))))
    case("65,600 octets", settings(), block(record(bytes(65511))) + bytes(63))


# ---------------------------------------------------------------- files


def expected(given, octets, ask, lent):
    """What the program `test_capture` prints of a case, below its title."""
    number, pair, count, out = opened(given, octets, b"\xa5" * lent)
    asked, asked_pair, body = payload(octets, ask)
    return (
        listing(given, octets)
        + f"call {numbered(number, pair)} count {count} sum {zlib.adler32(out):08x}\n"
        + f"payload {ask} number {numbered(asked, asked_pair)} octets {len(body)} sum {zlib.adler32(body):08x}\n"
    )


def framed(title, given, octets, ask, lent):
    """Fifteen octets of sizes and of the record asked for, then title, settings and block."""
    name = title.encode()
    sizes = ask.to_bytes(2, "big") + lent.to_bytes(4, "big") + len(given).to_bytes(4, "big") + len(octets).to_bytes(4, "big")
    return bytes([len(name)]) + sizes + name + given + octets


def files():
    return {
        "crates/reader/stdin": PAPER[0] + PAPER[1],
        "crates/reader/stdout": listing(*PAPER).encode(),
        "crates/test_capture/stdin": b"".join(framed(*c) for c in CASES),
        "crates/test_capture/stdout": "".join(f"# {c[0]}\n{expected(*c[1:])}" for c in CASES).encode(),
        "samples/line.capture": SAMPLE[0] + SAMPLE[1],
        "samples/broken.capture": BROKEN_SAMPLE[0] + BROKEN_SAMPLE[1],
    }


def main(words):
    for add in (add_call_cases, add_directory_cases, add_pair_cases, add_record_cases, add_size_cases):
        add()
    if words == ["write"]:
        for name, octets in files().items():
            (ROOT / name).parent.mkdir(parents=True, exist_ok=True)
            (ROOT / name).write_bytes(octets)
    elif words == ["check"]:
        stale = [n for n, o in files().items() if not (ROOT / n).exists() or (ROOT / n).read_bytes() != o]
        print("\n".join(f"{n} is not what this script makes" for n in stale) or "all as this script makes them")
        sys.exit(bool(stale))
    elif words == ["show"]:
        for title, given, octets, ask, lent in CASES:
            print(f"# {title}\nsettings {given.hex()}\nblock {octets[:200].hex()}{'..' if len(octets) > 200 else ''} ({len(octets)} octets)")
            print(expected(given, octets, ask, lent))
    else:
        sys.exit(__doc__)


if __name__ == "__main__":
    main(sys.argv[1:])
