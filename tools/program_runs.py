#!/usr/bin/env python3
"""Makes the inputs of `program_runs`, and what is to be printed for them.

    tools/program_runs.py

writes `crates/program_runs/stdin` and `stdout`. Like `exchange_cases.py`, on which it stands, it shares nothing with the crates.
"""
import random
from pathlib import Path

from exchange_cases import (
    EXAMPLE, Fault, MOST_BYTES, ONE, STEP, chain, drawn, lines_for, number, padded, read_input, read_number,
    read_system, system,
)

FILE = bytes.fromhex("02 02 0A 01 02 01 00 01 13 80 7D 01 02 01 00")


# What is printed for a file and for an input that is described

def lines_of_system(channels, states):
    lines = [f"states {len(states)}", f"channels {channels}"]
    for at, (readings, p, q, steps) in enumerate(states):
        lines += [f"state {at}", "  readings " + " ".join(map(str, readings))]
        lines += [f"  controller moves {p}", f"  environment moves {q}"]
        lines += [f"  move {a} against {b} leads to {steps[a][b]}" for a in range(p) for b in range(q)]
    return lines


def lines_of_file(data):
    try:
        (channels, states), end = read_system(data, 0, room=2 + 256 * (8 + 258))
    except Fault as fault:
        return [f"fault {fault.number} at byte {fault.place} in state {fault.state}"], 1
    return [f"read {end} of {len(data)} bytes", *lines_of_system(channels, states)], 0


def text_of(data):
    return "".join(chr(byte) if 32 <= byte <= 126 and byte != 92 else f"\\x{byte:02x}" for byte in data)


def lines_of_list(data, place):
    lines = []
    while place < len(data):
        letter = chr(data[place])
        first, after = read_number(data, place + 1)
        if letter in "MR":
            name = "maker" if letter == "M" else "remark"
            lines.append(f"{name} at byte {after}: {text_of(data[after:after + first])}")
            place = after + first
            continue
        second, place = read_number(data, after)
        if letter == "S":
            lines.append(f"sight at {first} {second}")
        else:
            move, place = read_number(data, place)
            lines.append(f"move {move} at {first} {second}")
    return lines


def lines_of_input(data):
    try:
        tolerance, old, new, _, place = read_input(data)
    except Fault as fault:
        return [f"fault {fault.number} at {fault.place}"], 1
    lines = [f"tolerance {tolerance}", "old system", *lines_of_system(*old), "new system", *lines_of_system(*new)]
    return [*lines, "list", *lines_of_list(data, place)], 0


def lines_of_exchange(data):
    lines = lines_for(data)
    return lines, 0 if lines[-1] in ("replaces", "differs") else 1


TOLD = {"E": lines_of_exchange, "F": lines_of_file, "I": lines_of_input}


# Runs: the program, the input, and whether all that is printed is wanted or its sum alone

def inputs():
    """Inputs of an exchange: granted, refused at each item, and as long as they may be and longer."""
    yield EXAMPLE
    yield b""
    for tolerance in ("80", "80 80 80", "80 80 04", "E9 07"):
        yield bytes.fromhex(tolerance)
    front = number(0)
    for before in (front, front + STEP):
        for bad in ("", "81 02", "01 09", "41 08", "01 01 80 80 80", "01 01 0A 00", "01 01 0A 01 01 01"):
            yield before + bytes.fromhex(bad)
    both = front + STEP + STEP
    for bad in (b"X", b"S\x00\x80", b"M\x41" + b"m" * 65, b"R\x01"):
        yield both + bad
    yield both
    yield both + b"M\x05makerR\x04\xc3\xa9 \\S\x00\x01V\x01\x01\x00"
    yield front + ONE + system([([5, 5], [[0]])])
    yield front + chain(65) + chain(64)


def files():
    """System files: whole, with bytes behind them, cut, and refused at each number."""
    yield FILE
    yield FILE + b"behind"
    for end in range(len(FILE)):
        yield FILE[:end]
    for bad in (
        "00", "81 02", "01 00", "01 09", "01 01 80 80 80", "01 01 80 80 04", "01 01 0A 00", "01 01 0A 01 11",
        "02 01 0A 01 01 01 0B 01 01 02",
    ):
        yield bytes.fromhex(bad)


def sizes():
    """A file of each number of states, of channels and of moves."""
    draw = random.Random(7)
    for n in range(1, 257):
        yield chain(n)
    for c in range(1, 9):
        yield system(drawn(draw, 3, c, 2, 2, [-32768, -1, 0, 1, 32767]))
    for moves in range(1, 17):
        yield system(drawn(draw, 2, 1, moves, 17 - moves, [0]))
    yield system(drawn(draw, 256, 8, 16, 16, [-100, 100]))


def runs():
    for program in "EI":
        for data in inputs():
            yield program, data, True
        for size in (MOST_BYTES, MOST_BYTES + 1, MOST_BYTES + 2):
            yield program, padded(size), program == "E"
    for data in files():
        yield "F", data, True
    for data in sizes():
        yield "F", data, False


def bytes_of(lines):
    return "".join(line + "\n" for line in lines).encode()


def told_of_run(at, program, data, whole):
    lines, status = TOLD[program](data)
    printed = bytes_of(lines)
    head = f"run {at}, {program}, {len(data)} bytes"
    if whole:
        return [head, *lines, f"status {status}"]
    return [head, f"{len(printed)} bytes of sum {sum(printed)}", f"status {status}"]


READ_FAILS = [
    f"the input cannot be read: {kind}" for kind in ("connection reset", "timed out", "operation would block")
]
NO_ROOM = "the output cannot be written: write zero"
NOT_PASSED_ON = "the output cannot be written: broken pipe"


def told_of_end(ended, taken, passed):
    return [ended, f"{len(taken)} bytes taken, {passed} passed on", taken.decode()]


def told_of_rooms(name, printed, status, rooms):
    lines = []
    for room in rooms:
        fits = len(printed) <= room
        lines += [f"{name}, and room for {room} bytes of output"]
        lines += told_of_end(f"status {status}" if fits else NO_ROOM, printed[:room], len(printed) if fits else 0)
    return lines


def told_of_failures(program, data):
    """What an input that fails and an output that fails lead to."""
    printed = bytes_of(TOLD[program](data)[0])
    lines = []
    for left in (len(data), len(data) // 2, 0):
        for failure in READ_FAILS:
            lines += [f"{program}, and the input fails with {left} bytes left", *told_of_end(failure, b"", 0)]
    lines += told_of_rooms(program, printed, 0, (1000, 20))
    return [*lines, f"{program}, and output that is not passed on", *told_of_end(NOT_PASSED_ON, printed, 0)]


def main():
    crate = Path(__file__).resolve().parent.parent / "crates" / "program_runs"
    framed, printed = [], []
    for program, data in (("E", EXAMPLE), ("F", FILE), ("I", EXAMPLE)):
        printed += told_of_failures(program, data)
    printed += told_of_rooms("no memory", b"no memory\n", 1, (1000, 3))
    for at, (program, data, whole) in enumerate(runs()):
        letter = program if whole else program.lower()
        framed.append(letter.encode() + len(data).to_bytes(3, "big") + data)
        printed += told_of_run(at, program, data, whole)
    (crate / "stdin").write_bytes(b"".join(framed))
    (crate / "stdout").write_text("\n".join(printed) + "\n")


if __name__ == "__main__":
    main()
