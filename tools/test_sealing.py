#!/usr/bin/env python3
"""What the program `test_sealing` must print, from an independent AES-128 (the Python package `cryptography`).

usage: tools/test_sealing.py > crates/test_sealing/stdout
Shares no code with the engine: the counter block and the mask are written from document 01.
"""
from sealing import aes, counter_block, seal

KEYS = [bytes.fromhex("2b7e151628aed2a6abf7158809cf4f3c"), bytes(range(16))]
MAC, CLOCK = 0x020000000001, 0x41


def payload(kind, octets):
    def octet(i):
        if i % 9:
            return (i % 256 * 7 + i // 256 % 256 + 3) % 256
        if kind < 256:
            return kind
        return 0xFF if kind == 257 and i // 18 % 10 < 7 else (i // 9 % 256 * 37 + 11) % 256
    return bytes(octet(i) for i in range(octets))


def digest(octets):
    total = 1
    for x in octets:
        total = (total * 16777619 + x) % 2**32
    return total


def line(number, count, out):
    return f"{number} {count} {digest(out):08x}" + (f" {out.hex()}" if 0 < len(out) <= 27 else "")


def sealed(clear, kind, eqs, key, channel, mac, clock):
    text = payload(kind, 9 * eqs)
    out, count = (text, 0) if clear else seal(KEYS[key], channel, mac, clock, text)
    print(line(0, count, out))


def refused(number, n, m):
    print(line(number, 0, b"\xaa" * m))


def work(clear, kind, n, number):
    """Sealed in place: the runs are the blocks of 18 octets, or of a last nine, with an octet to encipher (02, C-17)."""
    text = payload(kind, n)
    out, count, runs = text, 0, 0
    if not clear and not number:
        out, count = seal(KEYS[1], 0x80, MAC, CLOCK, text)
        runs = sum(seal(KEYS[1], 0x80, MAC, CLOCK, text[at:at + 18])[1] > 0 for at in range(0, n, 18))
    print(number, count, runs, f"{digest(out):08x}")


print("counter block, cipher block")
for index in (0, 2, 65536, 2097151):
    block = counter_block(0x80, MAC, CLOCK, index)
    print(block.hex(), aes(KEYS[1], block).hex())
print("control octets 00, 01, 80, 81, ff, mixed")
for kind in (0x00, 0x01, 0x80, 0x81, 0xFF, 256):
    sealed(0, kind, 2, 0, 0x00, MAC, CLOCK)
print("0, 1, 2, 3, 7, 64, 1500, 4999 and 5000 EQs")
for eqs in (0, 1, 2, 3, 7, 64, 1500, 4999, 5000):
    sealed(0, 256, eqs, 1, 0x01, MAC, CLOCK)
print("channel indices, MACs and clocks at their ends; clear")
sealed(0, 256, 3, 0, 0x80, MAC, CLOCK)
sealed(0, 256, 3, 0, 0x81, MAC, CLOCK)
sealed(0, 256, 3, 0, 0x00, 0, 0)
sealed(0, 256, 3, 0, 0x81, 2**48 - 1, 2**48 - 1)
sealed(0, 256, 5, 0, 0x80, 0x123456789ABC, 2**48 - 1)
sealed(1, 256, 3, 0, 0x00, MAC, CLOCK)
sealed(1, 0x00, 1500, 1, 0x81, MAC, CLOCK)
print("refused: lengths, channel index, MAC, clock, a length before a value")
for number, n, m in ((14, 10, 10), (14, 18, 9), (14, 18, 27)):
    refused(number, n, m)
for _ in ("02", "7f", "82", "ff", "MAC", "clock"):
    refused(1, 18, 18)
refused(14, 10, 10)
out, count = seal(KEYS[0], 0x00, 2**48 - 1, 2**48 - 1, payload(0, 18))
print(line(0, count, out))
for title, kind in (("control octets ff", 0xFF), ("control octets fe", 0xFE), ("seven of ten blocks ff", 257)):
    print("runs:", title)
    for eqs in (0, 1, 2, 3, 20, 1499, 1500):
        work(False, kind, 9 * eqs, 0)
print("runs: clear; refused")
work(True, 0x00, 27, 0)
work(False, 0x00, 28, 14)
work(False, 0x00, 27, 1)
