"""Reads the script of the program `test_exchange`; its grammar stands at the top of crates/test_exchange/src/script.rt and main.rt.

A player has command(word, numbers), the number of its last call, and shown(word), the text of what a row shows.
"""


def number(text):
    """Decimal, hexadecimal, or a power of 2, with another added or taken away."""
    for sign in "+-":
        if sign in text:
            left, right = text.split(sign)
            return (number(left) + (1 if sign == "+" else -1) * number(right)) % 2**64
    base, _, exponent = text.partition("^")
    return int(base) ** int(exponent) if exponent else int(base, 0)


def commands(text):
    """Each word with six numbers: those after it, then zeros."""
    words = text.split()
    for k, word in enumerate(words):
        if not word[0].isdigit():
            numbers = []
            for follower in words[k + 1:]:
                if not follower[0].isdigit():
                    break
                numbers.append(number(follower))
            yield word, numbers + [0] * (6 - len(numbers))


def play(player, text):
    for line in text.splitlines():
        label, bar, rest = line.partition(" | ")
        if bar:
            played, _, shown = rest.partition(":")
            for word, numbers in commands(played):
                player.command(word, numbers)
            print(f"{label}: {player.number}" + "".join(player.shown(name) for name in shown.split()))
        elif line and not line.startswith("#"):
            print(line)
