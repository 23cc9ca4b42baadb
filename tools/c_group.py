#!/usr/bin/env python3
"""What the C program host/c/group.c must print, from the ends of tools/olt.py and tools/onu.py, which share no code with the engine.

usage: tools/c_group.py > host/c/group.stdout
"""
from ends import Named
from olt import fresh_olt
from onu import fresh_onu

OLT_MAC, FIRST, INTERVAL, GROUP = 0x020000000001, 0xFFFFFFFFFF00, 1000, 9
LINES = [(0x020000000002, 5, 20, 12), (0x020000000003, 6, 30, 15)]
PICTURE = b"\x00a pictur" + b"\x01\xfee      "
olt, viewers = fresh_olt(OLT_MAC, FIRST)[1], []


def advance(n):
    worst = olt.advance(n)
    for viewer in viewers:
        worst |= viewer.advance(n)
    print(f"advance {n}: {worst}")


def arrivals():
    """Each viewer, when what left for all of them is there."""
    passed = 0
    for i, (_, _, down, _) in enumerate(LINES):
        advance(down - passed)
        passed = down
        yield i, viewers[i]


def begin():
    for i, (mac, llid, down, up) in enumerate(LINES):
        number, viewer = fresh_onu(Named(mac, [llid]), OLT_MAC, (FIRST + up) % 2**32)
        print(f"viewer {i + 1}: fresh {number} register {olt.register(Named(mac, [llid]), down + up, 2**47)} join {viewer.join(GROUP)}")
        viewers.append(viewer)
    for title, named in (("register group, a viewer twice", [5, 5]), ("register group", [5, 6])):
        print(f"{title}: {olt.register_group(GROUP, INTERVAL, named)} groups {olt.groupcount}")


def set_clock(i):
    _, llid, down, up = LINES[i]
    olt.capture(llid)
    sent, message = olt.clock_send(llid)
    advance(down)
    number, answer = viewers[i].clock_message(message)
    advance(up)
    print(f"clock of viewer {i + 1}: send {sent} message {number} acknowledge {olt.acknowledge(llid, answer)}")


def give_key(n, lost=None):
    number, message = olt.offer(GROUP, bytes([n] * 16))
    print(f"offer: {number} number {message[1]}")
    if number:
        return
    answers = []
    for i, viewer in arrivals():
        if i == lost:
            print(f"viewer {i + 1}: its message is lost")
            continue
        number, answer = viewer.key_message(message)
        joined = viewer.joined[0]
        print(f"viewer {i + 1}: key message {number}, a {joined.a} kept {joined.kept} held {joined.held}")
        answers.append(answer)
    advance(LINES[-1][3])
    for answer in answers:
        number, marks = olt.acknowledge(GROUP, answer), olt.groups[0].marks
        print(f"acknowledge of unit {answer.unit}: {number}, marks {marks[0]} {marks[1]}")


def show():
    number, header, count, sealed = olt.send(GROUP, 0x00, PICTURE, bytes(len(PICTURE)))
    group = olt.groups[0]
    print(f"send: {number} sealed {header[2]} index {header[3]} count {count}, A {group.A} O {group.O}")
    see = 0
    for i, viewer in arrivals():
        number, count, opened = viewer.receive(header, sealed, bytes(len(PICTURE)))
        sees = number == 0 and opened == PICTURE
        print(f"viewer {i + 1}: receive {number} count {count} {'the picture' if sees else 'nothing'}")
        see += sees
    return see


if __name__ == "__main__":
    begin()
    show()
    give_key(1)
    set_clock(0)
    give_key(1)
    set_clock(1)
    give_key(1)
    advance(INTERVAL)
    show()
    give_key(2, lost=1)
    advance(INTERVAL)
    show()
    give_key(3)
    show()
    advance(INTERVAL)
    print(f"viewers: {show()}")
