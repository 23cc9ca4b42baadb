"""Sealing, from document 01 (Counter block and mask), over the AES-128 of the Python package `cryptography`.

Shares no code with the engine; the tools that say what it must give stand on it.
"""
from cryptography.hazmat.primitives.ciphers import Cipher, algorithms, modes


def aes(key, block):
    step = Cipher(algorithms.AES(key), modes.ECB()).encryptor()
    return step.update(block) + step.finalize()


def counter_block(channel, mac, clock, index):
    return bytes([channel]) + mac.to_bytes(6, "big") + clock.to_bytes(6, "big") + index.to_bytes(3, "big")


def seal(key, channel, mac, clock, payload):
    """The payload under the mask, and how many octets were enciphered; a key of None is clear."""
    out, count = bytearray(payload), 0
    for e in range(0 if key is None else len(payload) // 9):
        stream = aes(key, counter_block(channel, mac, clock, e // 2))[8 * (e % 2):]
        for j in range(8):
            if not payload[9 * e] >> j & 1:
                out[9 * e + 1 + j] ^= stream[j]
                count += 1
    return bytes(out), count


def misfit(payload, out):
    return len(payload) % 9 != 0 or len(payload) // 9 > 4194303 or len(payload) != len(out)
