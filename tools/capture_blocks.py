"""Settings and capture blocks, made to measure, and what 01 ('Capture block') says of any.

Shares no code with the engine: cipher, counter block, mask, directory and listing are written here a second time,
from FIPS 197 and 01 alone. Python 3, standard library.
"""

# ---------------------------------------------------------------- AES-128, forward (FIPS 197)


def times2(x):
    return (x << 1) ^ 0x11B if x & 0x80 else x << 1


def product(x, y):
    total = 0
    while y:
        if y & 1:
            total ^= x
        x, y = times2(x), y >> 1
    return total


def substituted(x):
    """5.1.1: the inverse in the field, then the affine rule."""
    inverse = next((y for y in range(256) if product(x, y) == 1), 0)
    return sum(
        ((inverse >> i ^ inverse >> (i + 4) % 8 ^ inverse >> (i + 5) % 8 ^ inverse >> (i + 6) % 8 ^ inverse >> (i + 7) % 8 ^ 0x63 >> i) & 1) << i
        for i in range(8)
    )


SBOX = [substituted(x) for x in range(256)]


def expanded(key):
    """5.2: eleven round keys of 16 octets."""
    words, constant = [key[i : i + 4] for i in range(0, 16, 4)], 1
    for i in range(4, 44):
        word = words[i - 1]
        if i % 4 == 0:
            word = bytes(SBOX[x] for x in word[1:] + word[:1])
            word = bytes([word[0] ^ constant]) + word[1:]
            constant = times2(constant)
        words.append(bytes(a ^ b for a, b in zip(words[i - 4], word)))
    return [b"".join(words[4 * r : 4 * r + 4]) for r in range(11)]


def enciphered(keys, block):
    state = bytes(a ^ b for a, b in zip(block, keys[0]))
    for r in range(1, 11):
        state = [SBOX[x] for x in state]
        state = [state[(i + 4 * (i % 4)) % 16] for i in range(16)]
        if r < 10:
            mixed = []
            for c in range(0, 16, 4):
                for i in range(4):
                    a, b = state[c + i], state[c + (i + 1) % 4]
                    mixed.append(times2(a) ^ times2(b) ^ b ^ state[c + (i + 2) % 4] ^ state[c + (i + 3) % 4])
            state = mixed
        state = bytes(a ^ b for a, b in zip(state, keys[r]))
    return bytes(state)


# ---------------------------------------------------------------- sealing, which is opening (01, Counter block and mask)


def sealed(key, channel, mac, clock, payload):
    """The payload sealed, and the count of the octets enciphered."""
    keys, out, count = expanded(key), bytearray(payload), 0
    for eq in range(len(payload) // 9):
        if eq % 2 == 0:
            counter = bytes([channel]) + mac + clock.to_bytes(6, "big") + (eq // 2).to_bytes(3, "big")
            stream = enciphered(keys, counter)
        for j in range(8):
            if not payload[9 * eq] >> j & 1:
                out[9 * eq + 1 + j] ^= stream[8 * (eq % 2) + j]
                count += 1
    return bytes(out), count


# ---------------------------------------------------------------- the reader (01, Capture block; 02, C-11)


def directory(block):
    """Number, the broken pair from 1 or 0, and the records as (offset, length)."""
    if not 2 <= len(block) <= 65536:
        return 15, 0, []
    n = int.from_bytes(block[:2], "big")
    if n > 256 or 2 + 8 * n > len(block) or n == 0 and len(block) > 2:
        return 15, 0, []
    due, pairs = 2 + 8 * n, []
    for k in range(1, n + 1):
        pair = block[8 * k - 6 : 8 * k + 2]
        offset, length = int.from_bytes(pair[:4], "big"), int.from_bytes(pair[4:], "big")
        end = offset + length
        if offset != due or end > len(block) or k == n and end < len(block):
            return 18, k, []
        if length < 16 or length != 16 + 9 * int.from_bytes(block[offset + 12 : offset + 16], "big"):
            return 19, k, []
        pairs.append((offset, length))
        due = end
    return 0, 0, pairs


def header_number(settings, record):
    kind, channel, flags = record[0], record[1], record[4]
    if kind > 1 or channel & 0x7F > 1 or flags > 3 or flags == 2:
        return 1
    return 2 if record[2:4] != settings[39:41] else 0


def key_number(settings, record):
    flags = record[4]
    return 9 if flags & 1 and not settings[0] >> (flags >> 1) & 1 else 0


def record_number(settings, record):
    return header_number(settings, record) or (10 if record[5] != record[11] % 64 else 0) or key_number(settings, record)


def records(block):
    return [block[offset : offset + length] for offset, length in directory(block)[2]]


def exact(settings, block):
    """Of each record its number and its clock, as recorded."""
    return [(record_number(settings, record), int.from_bytes(record[6:12], "big")) for record in records(block)]


def nearly(settings, block):
    """02, C-18. Of each record its number and the clock taken; the smallest and the largest correction."""
    sums, made, verdicts = {}, [], []
    for record in records(block):
        number, clock = header_number(settings, record), 0
        if number == 0:
            expected = int.from_bytes(record[6:12], "big") + sums.get(record[1], 0)
            near = [c for c in range(-31, 32) if (expected + c) % 64 == record[5]]
            number = key_number(settings, record) if near else 10
            for correction in near:
                clock = (expected + correction) % (1 << 48)
                sums[record[1]] = sums.get(record[1], 0) + correction
                made.append(correction)
        verdicts.append((number, clock))
    return verdicts, (min(made, default=0), max(made, default=0))


def opened(settings, block, lent, verdicts=None):
    """Number, broken pair, count and output of opening a block into a lent output, by the verdicts on its records."""
    if len(settings) != 41 or len(lent) != len(block):
        return 14, 0, 0, lent
    if settings[0] > 3:
        return 1, 0, 0, lent
    number, pair, pairs = directory(block)
    if number:
        return number, pair, 0, lent
    out, total = bytearray(block), 0
    for (offset, length), (number, clock) in zip(pairs, verdicts or exact(settings, block)):
        record = block[offset : offset + length]
        if record[4] & 1 and number == 0:
            which = record[4] >> 1
            payload, count = sealed(settings[1 + 16 * which : 17 + 16 * which], record[1], settings[33:39], clock, record[16:])
            out[offset + 4] = 0
            out[offset + 16 : offset + length] = payload
            total += count
    return 0, 0, total, bytes(out)


def numbered(number, pair):
    """A number, and the broken pair where there is one."""
    return f"{number} {pair}" if pair else f"{number}"


def listing(settings, block, verdicts=None):
    """What the program prints, by the verdicts on the records."""
    number, pair, _, _ = opened(settings, block, bytes(len(block)))
    if number:
        return f"no llid ch key eqs result\nrefused {numbered(number, pair)}\n"
    lines = ["no llid ch key eqs result\n"]
    for k, (record, (number, _)) in enumerate(zip(records(block), verdicts or exact(settings, block)), 1):
        key = str(record[4] >> 1 & 1) if record[4] & 1 else "-"
        result = f"refused {number}" if number else "open"
        eqs = int.from_bytes(record[12:16], "big")
        lines.append(f"{k} {record[2:4].hex()} {record[1]:02x} {key} {eqs} {result}\n")
    return "".join(lines)


def payload(block, k):
    """Number, broken pair and payload of record k."""
    number, pair, pairs = directory(block)
    if number:
        return number, pair, b""
    if not 1 <= k <= len(pairs):
        return 1, 0, b""
    offset, length = pairs[k - 1]
    return 0, 0, block[offset + 16 : offset + length]


# ---------------------------------------------------------------- building blocks

KEY0 = bytes.fromhex("000102030405060708090a0b0c0d0e0f")
KEY1 = bytes.fromhex("2b7e151628aed2a6abf7158809cf4f3c")
MAC = bytes.fromhex("020000000001")
LLID = 5


def settings(presence=3, key0=KEY0, key1=KEY1, mac=MAC, llid=LLID):
    return bytes([presence]) + key0 + key1 + mac + llid.to_bytes(2, "big")


def record(body=b"", kind=0, channel=0, llid=LLID, flags=0, epam=None, clock=0x41, eqs=None):
    """A record as it stands in a block; EPAM and EQs fit unless given."""
    epam = clock % 64 if epam is None else epam
    eqs = len(body) // 9 if eqs is None else eqs
    return bytes([kind, channel]) + llid.to_bytes(2, "big") + bytes([flags, epam]) + clock.to_bytes(6, "big") + eqs.to_bytes(4, "big") + body


def captured(body, key=1, kind=0, channel=0, clock=0x41, mac=MAC, **fields):
    """A record as captured on the line: its payload sealed under key 0 or 1."""
    hidden, _ = sealed((KEY0, KEY1)[key], channel, mac, clock, body)
    return record(hidden, kind=kind, channel=channel, clock=clock, flags=1 | key << 1, **fields)


def block(*records, count=None, pairs=None):
    """Records under their directory; count and pairs (offset, length) fit unless given."""
    n = len(records) if count is None else count
    if pairs is None:
        pairs, due = [], 2 + 8 * len(records)
        for r in records:
            pairs.append((due, len(r)))
            due += len(r)
    heads = b"".join(o.to_bytes(4, "big") + l.to_bytes(4, "big") for o, l in pairs)
    return n.to_bytes(2, "big") + heads + b"".join(records)


def quanta(count, control=0, first=0):
    """Payload of so many EQs under one control octet, the data octets counting up."""
    return b"".join(bytes([control]) + bytes((first + 8 * e + j) % 256 for j in range(8)) for e in range(count))


# An empty clear record, a sealed one of one EQ, and the settings and the block of 01's example.
CLEAR, ONE = record(), captured(quanta(1))
PAPER = (
    settings(0, bytes(16), bytes(16)),
    bytes.fromhex("0002 00000012 00000010 00000022 00000010 0000 0005 00 01 000000000041 00000000 0000 0005 01 02 000000000042 00000000"),
)
