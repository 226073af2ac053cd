#!/usr/bin/env python3
"""Which lines are commands, and where the others stop being one, by regular expressions.

    tools/grammar.py < LINES        print an answer for each line: the command's text, or `no 11 4 PLACE`
    tools/grammar.py --generate     write crates/trial_commands/stdin and, with the answers, stdout

Written from docs/commands.md. A part of a number, from its first digit on, is a number too, so
what begins a command is told by leaving out ever more of its end.
"""

import pathlib
import random
import re
import sys

NUMBER = rb"(?:0|[1-9][0-9]{0,5})"
STOP = rb"(?:0|[1-9][0-9]?|1[0-9][0-9]|2[0-4][0-9]|25[0-5])"

COMMAND = re.compile(
    rb"[wr] " + NUMBER + rb"|t|[elfsnc] " + STOP + b" " + STOP + b" " + NUMBER + b" " + NUMBER + rb"(?: v)?"
)


def begun(parts):
    """What begins the parts in a row: nothing, or the first part and what begins the others."""
    expression = b""
    for part in reversed(parts):
        expression = b"(?:" + part + expression + b")?"
    return expression


EVENT = begun([b"[wr]", b" ", NUMBER])
QUERY = begun([b"[elfsnc]", b" ", STOP, b" ", STOP, b" ", NUMBER, b" ", NUMBER, b" ", b"v"])
BEGUN = re.compile(EVENT + b"|t|" + QUERY)


def answer(line):
    if COMMAND.fullmatch(line):
        return line
    place = max(k for k in range(len(line) + 1) if BEGUN.fullmatch(line[:k]))
    return b"no 11 4 %d" % place


EXAMPLES = [
    b"t",
    b"w 0",
    b"r 305",
    b"w 999999",
    b"e 1 3 100 200",
    b"l 0 255 0 0 v",
    b"f 25 199 12345 9",
    b"s 9 99 999 9999 v",
    b"n 254 26 100000 7",
    b"c 255 0 0 999999 v",
]

DOCUMENTED = [
    b"x",
    b"t x",
    b"w",
    b"w 01",
    b"w 1234567",
    b"e 256",
    b"e 1 3",
    b"e 1 3 100 200 ",
    b"e 1 3 100 200v",
    b"e 1 3 100 200 v ",
    b"e 255 255 999999 999999 v",
]

TELLING = b"\0\r /0269:vt\xff"

EDGES = [0, 1, 9, 10, 25, 26, 99, 100, 199, 249, 250, 254, 255, 256, 259, 260, 300, 999, 1000, 99999, 100000, 999999]


def edits(line):
    for k in range(len(line) + 1):
        for byte in TELLING:
            yield line[:k] + bytes([byte]) + line[k:]
            if k < len(line):
                yield line[:k] + bytes([byte]) + line[k + 1:]
        yield line[:k] + line[k + 1:]


def edges():
    for letter in b"wrtelfsncxEW":
        for number in [*EDGES, 1000000, 1234567, "00", "01", "0255"]:
            yield b"%c %s" % (letter, str(number).encode())
    for number in [*EDGES, 1000000, "00", "0255"]:
        for place in range(4):
            parts = [b"7", b"8", b"9", b"10"]
            parts[place] = str(number).encode()
            yield b"e " + b" ".join(parts)
            yield b"f " + b" ".join(parts) + b" v"
            yield b"n " + b" ".join(parts) + b" "


def at_random(chance):
    letters = b"elfsnc"
    while True:
        stops = [str(chance.choice([chance.randrange(300), chance.choice(EDGES)])).encode() for _ in range(2)]
        minutes = [str(chance.randrange(10 ** chance.randrange(1, 8))).encode() for _ in range(2)]
        line = bytearray(bytes([chance.choice(letters)]) + b" " + b" ".join(stops + minutes))
        if chance.random() < 0.5:
            line += b" v"
        for _ in range(chance.choice([0, 0, 1, 2])):
            line[chance.randrange(len(line))] = chance.choice([b for b in range(256) if b != 10])
        yield bytes(line)


def lines():
    chance = random.Random(1847)
    yield b""
    yield from DOCUMENTED
    for example in EXAMPLES:
        yield example
        yield from edits(example)
    yield from edges()
    for line in [b"1" * 10000, b"w " + b"1" * 9998, b"e 1 3 100 200" + b" " * 9987, b"t" + b"\0" * 9999]:
        yield line
    source = at_random(chance)
    for _ in range(400):
        yield next(source)
    for _ in range(100):
        yield bytes(chance.choice(b"wrtelfsnc  0123456789v\r\xfe") for _ in range(chance.randrange(20)))


def generate():
    folder = pathlib.Path(__file__).resolve().parent.parent / "crates" / "trial_commands"
    asked = list(dict.fromkeys(lines()))
    assert not any(b"\n" in line for line in asked)
    (folder / "stdin").write_bytes(b"".join(line + b"\n" for line in asked))
    (folder / "stdout").write_bytes(b"".join(answer(line) + b"\n" for line in asked))
    print(f"{len(asked)} lines, {sum(COMMAND.fullmatch(line) is not None for line in asked)} of them commands")


def main():
    if sys.argv[1:] == ["--generate"]:
        generate()
    elif sys.argv[1:]:
        sys.exit(__doc__)
    else:
        for line in sys.stdin.buffer:
            sys.stdout.buffer.write(answer(line.removesuffix(b"\n")) + b"\n")


main()
