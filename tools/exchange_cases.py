#!/usr/bin/env python3
"""Makes the inputs of `exchange_cases`, and what is to be printed for them.

    tools/exchange_cases.py

writes `crates/exchange_cases/stdin` and `stdout`. What is printed is found by a solution of its own, which shares nothing with the crates: a difference between the two shows in the gate.
"""
import random
from pathlib import Path

MOST_BYTES = 32768
SYSTEM_ROOM = 17026
TABLE_ROOM = 4096


class Fault(Exception):
    def __init__(self, number, place):
        self.number, self.place, self.state = number, place, 0


# What is printed for an input

def read_number(data, place):
    """The number at the place, and the place behind it."""
    value = 0
    for group in range(3):
        if place + group >= len(data):
            raise Fault(15, place)
        byte = data[place + group]
        value += (byte & 127) << (7 * group)
        if byte < 128:
            if value > 65535:
                raise Fault(17, place)
            return value, place + group + 1
    raise Fault(16, place)


def read_system(data, place, room=SYSTEM_ROOM):
    """The readings, move counts and next states, state by state, and the place behind the file."""
    n, after = read_number(data, place)
    if not 1 <= n <= 256:
        raise Fault(18, place)
    place = after
    c, after = read_number(data, place)
    if not 1 <= c <= 8:
        raise Fault(19, place)
    if 2 + n * (c + 258) > room:
        raise Fault(20, place)
    place = after
    states = []
    for state in range(n):
        try:
            row, place = read_row(data, place, n, c)
        except Fault as fault:
            fault.state = state
            raise
        states.append(row)
    return (c, states), place


def read_row(data, place, n, c):
    """The readings, move counts and next states of a state, and the place behind them."""
    readings = []
    for _ in range(c):
        filed, place = read_number(data, place)
        readings.append(filed // 2 if filed % 2 == 0 else -(filed + 1) // 2)
    moves = []
    for _ in range(2):
        count, after = read_number(data, place)
        if not 1 <= count <= 16:
            raise Fault(21, place)
        place = after
        moves.append(count)
    p, q = moves
    steps = []
    for _ in range(p):
        row = []
        for _ in range(q):
            target, after = read_number(data, place)
            if target >= n:
                raise Fault(22, place)
            place = after
            row.append(target)
        steps.append(row)
    return (readings, p, q, steps), place


def read_list(data, place):
    """The strikes that are proposed: pair, and move or None for sight."""
    strikes = []
    while place < len(data):
        letter = chr(data[place])
        if letter not in "SVMR":
            raise Fault(24, place)
        place += 1
        if letter in "MR":
            length, after = read_number(data, place)
            if length > 64:
                raise Fault(25, place)
            if after + length > len(data):
                raise Fault(15, place)
            place = after + length
            continue
        w, place = read_number(data, place)
        v, place = read_number(data, place)
        move = None
        if letter == "V":
            move, place = read_number(data, place)
        strikes.append((w, v, move))
    return strikes


def decide(tolerance, old, new, strikes):
    c, olds = old
    _, news = new
    entries = {}
    for w in range(len(olds)):
        for v in range(len(news)):
            entries[w, v] = 0
    count = 0

    def alike(w, v):
        return all(abs(x - y) <= tolerance for x, y in zip(olds[w][0], news[v][0]))

    def refutes(w, v, a):
        _, _, q, steps = olds[w]
        _, p2, q2, steps2 = news[v]
        targets = set(steps[a])
        return all(
            any(all(entries[t, steps2[a2][b2]] for t in targets) for b2 in range(q2))
            for a2 in range(p2)
        )

    lines = []
    for w, v, move in strikes:
        refusal = None
        if w >= len(olds) or v >= len(news):
            refusal = 7
        elif entries[w, v]:
            refusal = 8
        elif move is None:
            refusal = 10 if alike(w, v) else None
        elif move >= olds[w][1]:
            refusal = 9
        elif not refutes(w, v, move):
            refusal = 11
        if refusal:
            lines.append(f"refused {refusal} {w} {v}")
        else:
            count += 1
            entries[w, v] = count
            lines.append(f"strike {count} {w} {v}")
    swept = 0
    while True:
        made = 0
        for w, v in entries:
            if not entries[w, v] and (
                not alike(w, v) or any(refutes(w, v, a) for a in range(olds[w][1]))
            ):
                count += 1
                made += 1
                entries[w, v] = count
        swept += made
        if not made:
            break
    standing = sum(1 for entry in entries.values() if not entry)
    lines += [f"swept {swept}", f"standing {standing}"]
    lines.append("differs" if entries[0, 0] else "replaces")
    return lines


def read_input(data):
    """The tolerance, both systems, the strikes and where their list begins."""
    if len(data) > MOST_BYTES:
        raise Fault(28, MOST_BYTES)
    tolerance, place = read_number(data, 0)
    if tolerance > 1000:
        raise Fault(27, 0)
    old, place = read_system(data, place)
    new, place = read_system(data, place)
    return tolerance, old, new, read_list(data, place), place


def lines_for(data):
    try:
        tolerance, old, new, strikes, place = read_input(data)
        if old[0] != new[0]:
            raise Fault(2, place)
        if len(old[1]) * len(new[1]) > TABLE_ROOM:
            raise Fault(4, place)
        return decide(tolerance, old, new, strikes)
    except Fault as fault:
        return [f"fault {fault.number} at {fault.place}"]


# Inputs

def number(value):
    groups = []
    while True:
        value, group = divmod(value, 128)
        groups.append(group + (128 if value else 0))
        if not value:
            return bytes(groups)


def numbers(*values):
    return b"".join(map(number, values))


def filed(reading):
    return 2 * reading if reading >= 0 else -2 * reading - 1


def system(states):
    """A file: for each state its readings and the rows of its next states."""
    out = numbers(len(states), len(states[0][0]))
    for readings, steps in states:
        out += numbers(*map(filed, readings), len(steps), len(steps[0]))
        out += numbers(*(target for row in steps for target in row))
    return out


def drawn(draw, n, c, p, q, readings):
    return [
        (
            [draw.choice(readings) for _ in range(c)],
            [[draw.randrange(n) for _ in range(q)] for _ in range(p)],
        )
        for _ in range(n)
    ]


def shaken(draw, states, by):
    """The same system with each reading off by at most so much."""
    return [([x + draw.randint(-by, by) for x in readings], steps) for readings, steps in states]


ONE = system([([5], [[0]])])
STEP = system([([5], [[0], [1]]), ([9], [[1]])])
EXAMPLE = bytes.fromhex("03 01 01 0A 01 01 00 02 01 0A 01 02 00 01 12 01 01 01 56 00 00 00 53 00 01 56 00 00 00")


def chain(n):
    """States that lead on to the next, and stay at the last."""
    return system([([k % 3], [[min(k + 1, n - 1)]]) for k in range(n)])


def padded(size):
    """An input of so many bytes: remarks fill it up."""
    data = number(0) + ONE + ONE
    while size - len(data) >= 132:
        data += b"R" + number(64) + b"r" * 64
    while size - len(data) > 66:
        data += b"R" + number(0)
    rest = size - len(data) - 2
    return data + b"R" + number(rest) + b"r" * rest


def small_cases():
    yield EXAMPLE
    yield b""
    # the tolerance
    for tolerance in ("80", "80 80 80", "80 80 04", "E9 07", "E8 07", "83 80 00"):
        yield bytes.fromhex(tolerance)
    front = number(0)
    # the old file, and behind a good one the new file
    for before in (front, front + STEP):
        for bad in (
            "", "00", "81 02", "80", "01", "01 00", "01 09", "01 80 80 80",
            "41 08", "80 02 01", "01 01 80 80 04", "01 01 0A", "01 01 0A 00", "01 01 0A 11", "01 01 0A 01 00",
            "01 01 0A 01 11", "01 01 0A 01 01", "01 01 0A 01 01 01", "01 01 0A 02 01 00 80 01",
            "02 01 0A 01 01 01 0B 01 01 02",
        ):
            yield before + bytes.fromhex(bad)
    # padding in a file and in a list
    yield front + bytes.fromhex("81 00 81 80 00 8A 00 81 00 81 00 80 00") + ONE + b"S" + bytes.fromhex("80 00 80 80 00")
    # the list
    both = front + STEP + STEP
    for bad in (
        b"X", b"s", b"\xd3", b"S", b"S\x00", b"S\x00\x80", b"S\x80\x80\x80\x00", b"V\x00\x00", b"V\x00\x00\x80\x80\x04",
        b"M", b"M\x80", b"M\x41" + b"m" * 65, b"M\x80\x80\x80", b"R\x40" + b"r" * 63, b"R\x01", b"S\x00\x01Q",
    ):
        yield both + bad
        yield both + b"M\x05maker" + bad
    yield both
    yield both + b"M\x05makerR\x00M\x40" + b"m" * 64
    yield both + b"R\x40" + bytes(range(192, 256)) + b"S\x00\x01"
    # the list's faults come before the opening's, and those of the new file before the list's
    two_channels = system([([5, 5], [[0]])])
    yield front + ONE + two_channels + b"S\x00\x00"
    yield front + ONE + two_channels + b"X"
    yield front + ONE + bytes.fromhex("01 01 0A 01 01 01") + b"X"
    # strikes, refused and granted
    yield both + b"".join(
        letter + numbers(*fields)
        for letter, fields in (
            (b"S", (2, 0)), (b"S", (0, 2)), (b"V", (2, 0, 9)), (b"S", (0, 0)), (b"V", (0, 0, 2)), (b"V", (0, 0, 0)),
            (b"V", (1, 1, 1)), (b"S", (0, 1)), (b"S", (0, 1)), (b"V", (0, 1, 99)), (b"S", (1, 0)), (b"V", (0, 0, 1)),
            (b"V", (65535, 65535, 65535)),
        )
    )
    # the reply is chosen before the environment moves
    choice = system([([0], [[1], [2]]), ([1], [[1]]), ([2], [[2]])])
    chance = system([([0], [[1, 2]]), ([1], [[1]]), ([2], [[2]])])
    guess = system([([0], [[1, 2], [2, 1]]), ([1], [[1]]), ([2], [[2]])])
    for old in (choice, chance, guess):
        for new in (choice, chance, guess):
            yield front + old + new
    # tolerances
    for tolerance in (3, 4):
        yield number(tolerance) + ONE + system([([9], [[0]])])
    # the tolerance holds on the last channel as on the first
    for channel in range(8):
        readings = [100] * 8
        other = [100 + 7 * (k == channel) for k in range(8)]
        yield number(7) + system([(readings, [[0]])]) + system([(other, [[0]])])
        yield number(6) + system([(readings, [[0]])]) + system([(other, [[0]])])
    yield number(1000) + system([([-32768], [[0]])]) + system([([32767], [[0]])])


def large_cases():
    draw = random.Random(20)
    yield padded(MOST_BYTES)
    yield padded(MOST_BYTES + 1)
    # a table that is too short, and one that just suffices
    yield number(0) + chain(65) + chain(64)
    yield number(0) + chain(65) + chain(63)
    yield number(0) + chain(64) + chain(64)
    # words that are too few, and words that just suffice
    yield number(0) + system(drawn(draw, 65, 8, 1, 1, [0]))
    states = drawn(draw, 64, 8, 8, 8, [0, 40])
    other = shaken(draw, states, 3)
    for tolerance in (3, 2):
        yield number(tolerance) + system(states) + system(other) + b"M\x09Cunaweho\x21"
    # the last state differs, and strikes travel back through the chain
    n = 64
    old = [([5] * 8, [[min(k + 1, n - 1)] * 12] * 12) for k in range(n)]
    new = [([5] * 7 + [5 if k < n - 1 else 6], steps) for k, (_, steps) in enumerate(old)]
    yield number(0) + system(old) + system(new) + b"S" + numbers(63, 63) + b"V" + numbers(62, 62, 0)
    yield number(1) + system(old) + system(new) + b"S" + numbers(63, 63)
    for _ in range(3):
        states = drawn(draw, 40, 2, 3, 3, [0, 1])
        yield number(0) + system(states) + system(drawn(draw, 50, 2, 3, 3, [0, 1]))
        steps = [list(map(list, rows)) for _, rows in states]
        steps[draw.randrange(40)][0][0] = draw.randrange(40)
        yield number(0) + system(states) + system([(r, s) for (r, _), s in zip(states, steps)])


def main():
    crate = Path(__file__).resolve().parent.parent / "crates" / "exchange_cases"
    framed, printed = [], []
    for at, data in enumerate([*small_cases(), *large_cases()]):
        framed.append(len(data).to_bytes(2, "big") + data)
        printed.append(f"case {at}, {len(data)} bytes")
        printed += lines_for(data)
    (crate / "stdin").write_bytes(b"".join(framed))
    (crate / "stdout").write_text("\n".join(printed) + "\n")


if __name__ == "__main__":
    main()
