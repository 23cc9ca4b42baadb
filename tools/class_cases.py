#!/usr/bin/env python3
"""A capture block read for one user of a class (02, C-19), written from the papers; tools/capture_blocks.py makes the blocks.

usage: class_cases.py write           writes the test files of the program `class_reader`, and the sample
       class_cases.py check           says whether those files are what this script makes (exit status 1 if not)
       class_cases.py try PROGRAM N   runs the program on N drawn inputs, good, damaged and cut, and compares what it prints
Shares no code with the engine. Python 3, standard library.
"""
import pathlib
import random
import subprocess
import sys

from capture_blocks import block, captured, directory, quanta, record, record_number, settings

ROOT = pathlib.Path(__file__).resolve().parent.parent
HEADING = "no llid ch key eqs result\n"

# ---------------------------------------------------------------- the class (02, C-19)


def call_number(sets, users, user, octets, rights):
    """23, 14, 1, 3 or 0, the sets and the rights being lists of octets of any length."""
    if user == 0 or user > users:
        return 23
    if not 1 <= sets <= 16 or users > 16 or len(octets) != 41 * sets or len(rights) != sets * users:
        return 14
    each = [octets[41 * j : 41 * j + 41] for j in range(sets)]
    if any(s[0] > 3 for s in each) or any(q > 7 for q in rights):
        return 1
    if len({s[39:41] for s in each}) < sets:
        return 3
    return 0


def told(record, octets, own):
    """What a user with these rights is told of a record: `-` where it is hidden, else `seen`, `open` or `refused` and a code."""
    for j, right in enumerate(own):
        given = octets[41 * j : 41 * j + 41]
        if given[39:41] == record[2:4] and right & 3:
            number = record_number(given, record)
            if number in (1, 10):
                return f"refused {number}"
            if not right & 2:
                return "seen"
            return f"refused {number}" if number else "open"
    return "-"


def listing(given):
    """What the program prints for this input."""
    if len(given) < 3:
        return f"{HEADING}refused 14\n"
    sets, users, user = given[:3]
    behind = 3 + 41 * sets
    octets, rights, octets_of_block = given[3:behind], given[behind : behind + sets * users], given[behind + sets * users :]
    number = call_number(sets, users, user, octets, rights)
    if number:
        return f"{HEADING}refused {number}\n"
    number, pair, pairs = directory(octets_of_block)
    if number:
        return f"{HEADING}refused {number}{f' {pair}' if pair else ''}\n"
    lines = [HEADING]
    for k, (offset, length) in enumerate(pairs, 1):
        r = octets_of_block[offset : offset + length]
        result = told(r, octets, rights[sets * (user - 1) : sets * user])
        if result == "-":
            lines.append(f"{k} -\n")
            continue
        key = str(r[4] >> 1 & 1) if r[4] & 1 else "-"
        lines.append(f"{k} {r[2:4].hex()} {r[1]:02x} {key} {int.from_bytes(r[12:16], 'big')} {result}\n")
    return "".join(lines)


# ---------------------------------------------------------------- inputs


def joined(user, sets, rights, octets):
    """An input: the rights user by user, one list for each."""
    return bytes([len(sets), len(rights), user]) + b"".join(sets) + b"".join(map(bytes, rights)) + octets


def sample(user):
    """Three LLIDs, and two users: the first may open 5, see 6 and nothing of 7, the second all of 7."""
    sets = [settings(3), settings(1, llid=6), settings(2, llid=7)]
    octets = block(
        record(clock=0x41),
        captured(b"\x00to unit5", clock=0x42),
        record(clock=0x43, llid=6),
        captured(b"\x00to unit6", key=1, clock=0x44, llid=6),
        record(clock=0x45, llid=6, epam=0),
        captured(b"\x00to unit7", clock=0x46, llid=7),
        record(clock=0x47, llid=7, kind=9),
        record(clock=0x48, kind=2),
        record(clock=0x49, llid=8),
        captured(b"\x00to unit5" * 2, key=0, channel=0x81, clock=0x123456789ABC),
    )
    return joined(user, sets, [[3, 1, 4], [0, 4, 7]], octets)


FILES = {
    "crates/class_reader/stdin": sample(1),
    "crates/class_reader/stdout": listing(sample(1)).encode(),
    "samples/class.capture": sample(1),
}


def drawn(draw):
    """An input at random: mostly good, at times damaged in an octet or cut."""
    n, m = draw.choice([1, 1, 2, 3, 16]), draw.choice([0, 1, 2, 3, 16])
    llids = draw.sample(range(20), n)
    if n > 1 and draw.random() < 0.1:
        llids[0] = llids[-1]
    sets = [settings(draw.choice([0, 1, 2, 3, 3] + [4] * (draw.random() < 0.1)), llid=l) for l in llids]
    rights = [[draw.choice([0, 1, 2, 3, 4, 5, 6, 7] + [8] * (draw.random() < 0.02)) for _ in range(n)] for _ in range(m)]
    records = []
    for _ in range(draw.choice([0, 1, 4, 9])):
        llid, clock = draw.choice(llids + [21]), draw.randrange(2**48)
        body = quanta(draw.randrange(3), draw.randrange(256))
        odd = draw.random() < 0.3
        kind, channel = draw.choice([0, 1, 2]) if odd else 0, draw.choice([0, 1, 128, 129, 2]) if odd else 0
        epam = draw.randrange(80) if draw.random() < 0.2 else clock % 64
        records.append(record(body, kind, channel, llid, draw.choice([0, 1, 3, 3] + [2] * odd), epam, clock))
    given = bytearray(joined(draw.randrange(m + 2), sets, rights, block(*records)))
    if draw.random() < 0.3:
        given[draw.randrange(len(given))] ^= 1 << draw.randrange(8)
    if draw.random() < 0.1:
        del given[draw.randrange(len(given)) :]
    return bytes(given)


def main():
    if sys.argv[1:] == ["write"]:
        for name, content in FILES.items():
            (ROOT / name).write_bytes(content)
    elif sys.argv[1:] == ["check"]:
        wrong = [name for name, content in FILES.items() if not (ROOT / name).exists() or (ROOT / name).read_bytes() != content]
        print("\n".join(wrong) or "as made")
        sys.exit(1 if wrong else 0)
    elif len(sys.argv) == 4 and sys.argv[1] == "try":
        draw = random.Random(19)
        for i in range(int(sys.argv[3])):
            given = drawn(draw)
            got = subprocess.run([sys.argv[2]], input=given, capture_output=True, check=True).stdout.decode()
            if got != listing(given):
                sys.exit(f"input {i}: {given.hex()}\nprinted {got}expected {listing(given)}")
        print(f"{sys.argv[3]} alike")
    else:
        sys.exit(__doc__)


if __name__ == "__main__":
    main()
