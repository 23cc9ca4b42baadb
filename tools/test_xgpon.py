#!/usr/bin/env python3
"""What the program `test_xgpon` must print: the OLT's key exchange, from Rec. ITU-T G.987.3 (document 003), 15.5.3.2.

usage: tools/test_xgpon.py > crates/test_xgpon/stdout
Shares no code with the engine.
"""

NEW, EXISTING = "Key_Report(NewKey)", "Key_Report(ExistingKey)"
BEGIN, TO_SEND, REKEY, CHECK = "begin key exchange", "begin to send with the new key", "rekey", "key check"
# the old and the new index: of the first exchange, of a rekey, and of the next one
PAIRS = [(0, 1), (1, 2), (2, 1)]
# milliseconds
STARTS = {"TK1": 100, "TK2": 10, "TK3": 10}
# valid in KL0 to KL4: the old key, the new one
SENT_UNDER = ("", "o", "on", "n", "n")
RECEIVED_UNDER = ("", "o", "o", "on", "n")


def sound(state, old, new):
    return (old, new) == (0, 0) if state == 0 else 1 <= state <= 4 and (old, new) in PAIRS


class Olt:
    """One step: what it sends, starts and stops is collected on the way."""

    def __init__(self, state, old, new):
        self.state, self.old, self.new = state, old, new
        self.number, self.acts = 0, []

    def generate(self, *timers):
        """b) The OLT sends Key_Control(Generate); the figure sets the timers."""
        self.state = 1
        self.acts += [f"Generate {self.new}", *(f"+{timer}" for timer in timers)]

    def confirm(self, *timers):
        """d) The OLT sends Key_Control(Confirm)."""
        self.acts += [f"Confirm {self.new}", *(f"+{timer}" for timer in timers)]

    def stop(self, *timers):
        self.acts += [f"-{timer}" for timer in timers]

    def give_up(self):
        """The figure: TK1 expires, no keys valid."""
        self.state, self.old, self.new = 0, 0, 0

    def inactive(self, event, index):
        if event == BEGIN:
            self.old, self.new = 0, 1
            self.generate("TK1", "TK2")

    def request(self, event, index):
        if event == NEW and index == self.new:
            self.state = 2
            self.stop("TK2")
        elif event in (NEW, EXISTING) and index != self.new:
            self.number = 25
        elif event == "TK1 expires":
            self.generate("TK1", "TK2")
        elif event == "TK2 expires":
            self.generate("TK2")

    def key_confirm(self, event, index):
        if event == TO_SEND:
            self.state = 3
            self.confirm("TK3")
        elif event == "TK1 expires":
            self.give_up()

    def waiting(self, event, index):
        if event == EXISTING and index == self.new:
            self.state = 4
            self.stop("TK1", "TK3")
        elif event in (NEW, EXISTING) and index != self.new:
            self.number = 25
        elif event in ("TK2 expires", "TK3 expires"):
            self.confirm("TK3")
        elif event == "TK1 expires":
            self.give_up()
            self.stop("TK3")

    def active(self, event, index):
        if event in (NEW, EXISTING) and index != self.new:
            self.number = 25
        elif event == REKEY:
            self.old, self.new = self.new, {1: 2, 2: 1}[self.new]
            self.generate("TK1", "TK2")
        elif event == CHECK:
            self.confirm()

    def step(self, event, index):
        if not sound(self.state, self.old, self.new):
            self.number = 1
            return
        (self.inactive, self.request, self.key_confirm, self.waiting, self.active)[self.state](event, index)

    def __str__(self):
        return f"KL{self.state} {self.old} {self.new}"


def valid(table, state, old, new):
    if not sound(state, old, new):
        return "1 0 0"
    return f"0 {old if 'o' in table[state] else 0} {new if 'n' in table[state] else 0}"


def play(*lent):
    print(f"{Olt(*lent)} may be sent under: {valid(SENT_UNDER, *lent)}")
    print(f"{Olt(*lent)} may be received under: {valid(RECEIVED_UNDER, *lent)}")
    reports = [(report, index) for index in range(4) for report in (NEW, EXISTING)]
    others = [*(f"TK{n} expires" for n in (1, 2, 3)), BEGIN, TO_SEND, REKEY, CHECK]
    for event, index in reports + [(event, None) for event in others]:
        olt = Olt(*lent)
        olt.step(event, index)
        named = event if index is None else f"{event} {index}"
        print(f"{Olt(*lent)}, {named}: " + " ".join([str(olt.number), str(olt), *olt.acts]))


def main():
    for timer, start in STARTS.items():
        print(f"{timer} {start} ms")
    play(0, 0, 0)
    for state in (1, 2, 3, 4):
        for pair in PAIRS:
            play(state, *pair)
    outside = [(0, 0, 1), (0, 1, 0), (1, 0, 0), (1, 0, 2), (2, 1, 1), (3, 2, 2), (4, 3, 1), (4, 2, 3), (5, 0, 1), (255, 0, 0)]
    for lent in outside:
        play(*lent)


if __name__ == "__main__":
    main()
