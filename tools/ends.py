"""What the two ends of tools/olt.py and tools/onu.py share, written from document 01 (Clock; Keys; 'When the reader says no'), from
document 02 (C-14, C-16) and the decisions on both (docs/DECISIONS.md).

These ends share no code with the engine; the tools that say what it must give play on them. A call returns the number, and beside it
what it hands over.
"""

from collections import namedtuple

TURN, LOCAL, LAST, SECOND, LIFE = 2**48, 2**32, 2**62, 390625000, 2**48
TOP = 2**32 - 1
NEAR, CHANGES = 1000000, 2**61

# kind 1 to a clock message, 2 to a key message; to a group's the unit is named, by an LLID of its own
Answer = namedtuple("Answer", "kind number named unit", defaults=(0, 0))
NO_STAMPS, NO_MESSAGE, NO_ANSWER, NO_HEADER = (0, 0), (0, 0, bytes(16)), Answer(0, 0), (0, 0, 0, 0, 0)


class Named:
    """A MAC and four places for LLIDs, of which `count` are in use."""

    def __init__(self, mac, llids, count=None):
        self.mac, self.places, self.count = mac, (list(llids) + [0] * 4)[:4], len(llids) if count is None else count

    def llids(self):
        return self.places[:self.count]

    def in_range(self):
        return self.mac < 2**48 and 1 <= self.count <= 4

    def twice(self):
        return len(set(self.llids())) < len(self.llids())

    def kept(self):
        return Named(self.mac, self.llids())


def old(end, now):
    """Whether the key in use was first sent under 2^48 ago, in ticks at the OLT and in travel at a unit (02, C-16)."""
    return end.noted == 1 and now - end.first >= LIFE


def good_header(header, high):
    channel, _, enabled, enckey, epam = header
    return channel in (high, high + 1) and enabled <= 1 and enckey <= enabled and epam <= 63
