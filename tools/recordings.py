#!/usr/bin/env python3
"""Two recordings of one line held against each other (02, C-15, C-20), and what the program `compare` must print.

Shares no code with the engine: written from 01 and 02 alone, on the blocks of tools/capture_blocks.py. Python 3, standard library.

usage: recordings.py write     writes the test files of the program `compare`, and the sample
       recordings.py check     says whether those files are what this script makes (exit status 1 if not)
       recordings.py show      prints what each case gives
"""
import pathlib
import sys

from capture_blocks import block, directory, numbered, quanta, record

ROOT = pathlib.Path(__file__).resolve().parent.parent
HEADING = "first second llid ch clock result\n"
OUTPUT = 512

# ---------------------------------------------------------------- the comparison (02, C-15)


def records_of(octets):
    """The refusal of a block, its pair or 0, and its records."""
    number, pair, places = directory(octets)
    if number:
        return number, pair, []
    records = [octets[offset : offset + length] for offset, length in places]
    for r in records:
        if r[0] > 1 or r[1] & 0x7F > 1 or r[4] > 3 or r[4] == 2:
            return 1, 0, []
    return 0, 0, records


def key(r):
    """Channel index, LLID and clock."""
    return r[1:4] + r[6:12]


def same(r, s):
    """The EQ count, all nine octets of every EQ, and EncKey, bit 1 of the flags, agree."""
    return r[12:] == s[12:] and r[4] >> 1 == s[4] >> 1


def compared(llid, one, two, lent=OUTPUT):
    """Number, pair, block, and per entry its record numbers (0 for none), its record and 0, 1 or 2; then the total."""
    if lent != OUTPUT:
        return 14, 0, 0, [], 0
    blocks = []
    for which, octets in (1, one), (2, two):
        number, pair, records = records_of(octets)
        if number:
            return number, pair, which, [], 0
        blocks.append(records)
    for which, records in enumerate(blocks, 1):
        if len({key(r) for r in records}) < len(records):
            return 22, 0, which, [], 0
    places = [{key(r): k for k, r in enumerate(records, 1)} for records in blocks]
    entries = []
    for i, r in enumerate(blocks[0], 1):
        j = places[1].get(key(r), 0)
        entries.append((i, j, r, 0 if not j else 1 if same(r, blocks[1][j - 1]) else 2))
    entries += [(0, j, s, 0) for j, s in enumerate(blocks[1], 1) if key(s) not in places[0]]
    total = sum(mark == 0 and int.from_bytes(r[2:4], "big") == llid for _, _, r, mark in entries)
    return 0, 0, 0, entries, total


def listing(octets):
    """What the program prints: LLID (2 octets), length of the first block (4), both blocks."""
    size = int.from_bytes(octets[2:6], "big")
    if len(octets) < 6 or size > len(octets) - 6:
        return HEADING + "refused 14\n"
    number, pair, which, entries, total = compared(int.from_bytes(octets[:2], "big"), octets[6 : 6 + size], octets[6 + size :])
    if number:
        return HEADING + f"refused {numbered(number, pair)} {which}\n"
    lines = [HEADING]
    for i, j, r, mark in entries:
        clock = int.from_bytes(r[6:12], "big")
        lines.append(f"{i or '-'} {j or '-'} {r[2:4].hex()} {r[1]:02x} {clock} {('alone', 'same', 'different')[mark]}\n")
    return "".join(lines) + f"total {total}\n"


# ---------------------------------------------------------------- the cases


def given(one, two, llid=5, size=None):
    return llid.to_bytes(2, "big") + (len(one) if size is None else size).to_bytes(4, "big") + one + two


A, B, C = (record(quanta(1, first=k), clock=0x41 + k, channel=0x80) for k in range(3))
# an EQ with idles behind two data octets, one idle of it lost, and the idles taken for data
IDLE, LOST = b"\xfcab" + b"\x07" * 6, b"\xfcab" + b"\x07" * 5 + b"\x00"
TAKEN = b"\x00" + IDLE[1:]
TWICE = record(quanta(2), kind=1, clock=0x41, channel=0x80)
CUT = block(A, B)[:-1]
CASES = {
    "envelopes lost on both ways": given(
        block(A, B, record(llid=6, clock=0xFFFFFFFFFFFF), record(quanta(2), clock=0x100, flags=1), C, record(clock=0x200), record(IDLE, clock=0x300), record(IDLE, clock=0x301), record(quanta(1), clock=0x302, flags=1), record(quanta(1), clock=0x303)),
        block(A, C, record(quanta(2, first=1), clock=0x100, flags=3), record(clock=0x201), record(clock=0x200, channel=1), record(clock=0x200), record(LOST, clock=0x300), record(TAKEN, clock=0x301), record(quanta(1), clock=0x302, flags=3), record(quanta(1), clock=0x303, flags=1)),
    ),
    "nothing recorded": given(block(), block()),
    "nothing at the unit": given(block(A, B), block()),
    "a block against itself": given(block(A, B, C), block(A, B, C)),
    "another order": given(block(A, B, C), block(C, A, B)),
    "an LLID that is nowhere": given(block(A, B), block(C), llid=0xFFFF),
    "an EQ count that differs": given(block(record(quanta(2))), block(record(quanta(1)))),
    "control octets of the last EQ": given(block(record(quanta(2) + IDLE)), block(record(quanta(2) + TAKEN))),
    "EncEnabled alone": given(block(record(flags=1)), block(record())),
    "EncKey alone": given(block(record(flags=3)), block(record(flags=1))),
    "a control octet alone": given(block(record(quanta(1, control=0xFF))), block(record(quanta(1)))),
    "a control character's value": given(block(record(quanta(1, control=0xFF))), block(record(quanta(1, control=0xFF, first=1)))),
    "kind, flags and EPAM alone": given(block(record(kind=1, flags=1, epam=0)), block(record())),
    "two records alike in the first block": given(block(A, TWICE), block(A)),
    "two records alike in the second": given(block(A), block(TWICE, B, A)),
    "two records alike, and a second block of no octets": given(block(A, TWICE), b""),
    "two records alike in both": given(block(A, TWICE), block(TWICE, A)),
    "a broken pair in the first": given(CUT, block()),
    "a broken pair in the second": given(block(A), CUT),
    "a length that does not suit, in both": given(block(record(quanta(1), eqs=2)), block(record(quanta(1), eqs=2))),
    "a kind of 2 in the first, and a broken second": given(block(A, record(kind=2)), CUT),
    "flags of 2 in the second": given(block(A), block(B, record(flags=2))),
    "no input": b"",
    "five octets": bytes(5),
    "a first block past the input": given(block(A), b"", size=len(block(A)) + 1),
}
SAMPLE = next(iter(CASES.values()))


# ---------------------------------------------------------------- files


def files():
    return {
        "crates/compare/stdin": SAMPLE,
        "crates/compare/stdout": listing(SAMPLE).encode(),
        "samples/two.captures": SAMPLE,
    }


def main(words):
    if words == ["write"]:
        for name, octets in files().items():
            (ROOT / name).parent.mkdir(parents=True, exist_ok=True)
            (ROOT / name).write_bytes(octets)
    elif words == ["check"]:
        stale = [n for n, o in files().items() if not (ROOT / n).exists() or (ROOT / n).read_bytes() != o]
        print("\n".join(f"{n} is not what this script makes" for n in stale) or "all as this script makes them")
        sys.exit(bool(stale))
    elif words == ["show"]:
        for title, octets in CASES.items():
            print(f"# {title}\n{listing(octets)}")
    else:
        sys.exit(__doc__)


if __name__ == "__main__":
    main(sys.argv[1:])
