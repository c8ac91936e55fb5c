#!/usr/bin/env python3
"""Writes what crates/packet_cases must print for the cases in its stdin (their fields: crates/packet_cases/src), by document 01 as changed by
document 02 §7.

    python3 bench/packets/outcomes.py [CASES] > crates/packet_cases/stdout
"""
import sys
from pathlib import Path


def field(size, least=0, most=None):
    """The size in bytes, the least and the largest value; a field whose least is negative is signed."""
    return size, least, 256 ** size - 1 if most is None else most


BYTE, SHORT, REST = field(1), field(2), None
# A layout: the fields, then the sizes of the parts behind them.
NOTHING = [], []
STATE = [SHORT, SHORT]
COMMANDS = {
    0: ("S", ([BYTE, BYTE], [96, REST])),
    1: ("A", ([field(4, 0xDEADBEEF, 0xDEADBEEF)], [])),
    2: ("AMB", (STATE + [field(1, 0, 2), field(1, 0, 0)], [])),
    3: ("AMB", (STATE + [field(1, 0, 1), field(1, 0, 0)], [REST])),
    4: ("AMBS", NOTHING),
    5: ("AMBS", NOTHING),
    6: ("A", ([field(1, 0, 1), field(4), SHORT], [])),
    10: ("A", NOTHING),
    11: ("A", NOTHING),
    12: ("AMB", NOTHING),
    13: ("AMB", NOTHING),
    20: ("AMBS", ([field(1, 0, 100)], [])),
    21: ("AMB", ([BYTE], [REST])),
    70: ("AMB", ([SHORT, BYTE, BYTE, field(1, -128, 127), BYTE, field(3), SHORT], [])),
    71: ("AMB", ([SHORT, BYTE, field(3), field(1, 0, 60)], [])),
    72: ("AM", NOTHING),
    80: ("A", NOTHING)}
MESSAGES = {
    0: ([field(1, 0, 15)], []),
    1: ([BYTE] * 6, []),
    2: ([SHORT], []),
    3: ([field(1, 0, 1), field(1, 0, 15)], [9]),
    4: NOTHING,
    11: ([SHORT], [REST])}
RESULTS = {72: ("presence", ([field(8)] * 8, [])), 80: ("uptime", ([field(4)], []))}
DONE = 0, 2


class Refused(Exception):
    """A refusal, by its number."""


def refuse(number, broken):
    if broken:
        raise Refused(number)


def number(s, at, size):
    return int.from_bytes(s[at:at + size], "little")


def digits(value, size):
    return value.to_bytes(size, "little")


def length(layout):
    """Without the rest."""
    fields, parts = layout
    return sum(size for size, _, _ in fields) + sum(size for size in parts if size is not REST)


def fields_of(layout, s, wrong_length, wrong_field):
    """The values, and the parts as (start, length)."""
    fields, parts = layout
    refuse(wrong_length, len(s) < length(layout) or REST not in parts and len(s) > length(layout))
    values, places, at = [], [], 0
    for size, least, most in fields:
        values.append(int.from_bytes(s[at:at + size], "little", signed=least < 0))
        refuse(wrong_field, not least <= values[-1] <= most)
        at += size
    for size in parts:
        places.append((at, len(s) - at if size is REST else size))
        at += places[-1][1]
    return values, places


def part(lent, start, size):
    refuse(17, start + size > len(lent))
    return lent[start:start + size]


def image(layout, values, places, lent):
    """The parts are those of lent bytes."""
    fields, parts = layout
    s = b""
    for (size, least, most), value in zip(fields, values, strict=True):
        refuse(17, not least <= value <= most)
        s += value.to_bytes(size, "little", signed=least < 0)
    for size, place in zip(parts, places, strict=True):
        refuse(17, size not in (REST, place[1]))
        s += part(lent, *place)
    return s


def judge_pairs(q, wrong_length, wrong_field):
    """As many as the count before them, each a stone and 0 to 100."""
    refuse(wrong_length, len(q) != 1 + 2 * q[0])
    refuse(wrong_field, any(value > 100 for value in q[2::2]))


def text(numbers, places=(), offset=""):
    return "".join(f" {n}" for n in numbers) + offset + "".join(f" {start}+{size}" for start, size in places)


def read_control(p, mode, access):
    """18 to 24. The content's text, and what writes the packet again; so with the other readers."""
    refuse(18, len(p) < 5 or len(p) != 5 + number(p, 3, 2))
    refuse(19, p[0] != 5)
    command, q = number(p, 1, 2), p[5:]
    refuse(20, command not in COMMANDS)
    marks, layout = COMMANDS[command]
    refuse(21, not set(marks) & set("S" if mode == "s" else "AMB"))
    refuse(22, access != "-" and access.upper() not in marks)
    values, places = fields_of(layout, q, 23, 24)
    if command == 21:
        judge_pairs(q, 23, 24)
    # an RSSI offset stands as its byte, then signed behind the numbers
    offset = f" offset {values[3]}" if command == 70 else ""
    told = text([command, *(value % 256 if value < 0 else value for value in values)], places, offset)
    return told, lambda: write_control(command, values, places, q)


def write_control(command, values, places, lent):
    q = image(COMMANDS[command][1], values, places, lent)
    if command == 21:
        judge_pairs(q, 17, 17)
    refuse(17, len(q) > 65535)
    return b"\x05" + digits(command, 2) + digits(len(q), 2) + q


def read_message(m, mode, form, required):
    """14 to 24."""
    kind, data = number(m, 0, 2), m[2:]
    refuse(14, len(m) < 2 or kind != 10 and kind not in MESSAGES)
    refuse(15, kind == 10 and required and form == "-")
    refuse(16, kind in (0, 1, 4) and form == "e")
    if kind == 10:
        told, write = read_control(data, mode, "a" if form == "e" else "-")
        return " 10" + told, lambda: message_of(10, write())
    values, places = fields_of(MESSAGES[kind], data, 17, 17)
    return text([kind, *values], places), lambda: write_message(kind, values, places, data)


def write_message(kind, values, places, lent):
    return message_of(kind, image(MESSAGES[kind], values, places, lent))


def message_of(kind, data):
    refuse(17, 2 + len(data) > 507)
    return digits(kind, 2) + data


def read_result(p):
    """18, 19, 23."""
    refuse(18, len(p) < 7 or len(p) != 7 + number(p, 5, 2))
    refuse(19, p[0] != 5)
    command, code, q = number(p, 1, 2), number(p, 3, 2), p[7:]
    if code in DONE and command in RESULTS:
        name, layout = RESULTS[command]
        values, _ = fields_of(layout, q, 23, None)
        return f" {name}" + text([code, *values]), lambda: write_done(command, code, values)
    came = "done" if code in DONE else "waiting" if code == 1 else "failed"
    return f" {came}" + text([command, code], [(7, len(q))]), lambda: write_result(command, code, q)


def write_result(command, code, q):
    refuse(17, len(q) > 65535)
    refuse(17, code in DONE and command in RESULTS and len(q) != length(RESULTS[command][1]))
    return b"\x05" + digits(command, 2) + digits(code, 2) + digits(len(q), 2) + q


def write_done(command, code, values):
    refuse(17, code not in DONE)
    return write_result(command, code, image(RESULTS[command][1], values, [], b""))


def read(kind, s, way):
    if kind == "c":
        return read_control(s, *way)
    if kind == "m":
        return read_message(s, way[0], way[1], way[2:] == "!")
    return read_result(s)


def outcome_of_reading(kind, s, way):
    try:
        told, write = read(kind, s, way)
    except Refused as refusal:
        return f" refused {refusal}"
    try:
        return told + (", written back" if write() == s else ", written otherwise")
    except Refused as refusal:
        return told + f", writing refused {refusal}"


def mark(s, way):
    try:
        read_control(s, *way)
        return " ok"
    except Refused as refusal:
        return f" {refusal}"


def written(kind, given, lent, parts):
    """The image."""
    first, *values = given.replace(":", " ").split()
    first, values = int(first), [int(value, 16 if kind == "wp" else 10) for value in values]
    places = [tuple(map(int, place.split("+"))) for place in parts.split()]
    if kind == "wp":
        return write_done(72, first, values)
    if kind == "wu":
        return write_done(80, first, values)
    if kind == "wr":
        return write_result(first, values[0], part(lent, *places[0]))
    if kind == "wc":
        return write_control(first, values, places, lent)
    if first == 10:
        return message_of(10, write_control(values[0], values[1:], places, lent))
    return write_message(first, values, places, lent)


def outcome_of_writing(kind, given, lent, parts, lengths):
    """The answer, and the room after it; of one above 600 bytes the first 16, and 12 from a place on."""
    size, place = map(int, (lengths + " 0").split()[:2])
    room = b"\xee" * size
    try:
        s = written(kind, given, lent, parts)
        refuse(25, size < len(s))
        answer, room = f" wrote {len(s)}", s + room[len(s):]
    except Refused as refusal:
        answer = f" refused {refusal}"
    if size <= 600:
        return f"{answer}, {room.hex()}"
    looked_at = room[place:place + 12] if place + 12 <= size else b""
    return f"{answer}, {room[:16].hex()}..{looked_at.hex()}"


def parsed(listed):
    """Bytes listed as 0709+00*96+11."""
    pieces = [piece.partition("*") for piece in listed.split("+")]
    return b"".join(bytes.fromhex(pair) * (int(n) if star else 1) for pair, star, n in pieces)


def outcome(line):
    label, *case = line.split("|")
    if not case:
        return label
    kind, given, listed, *rest = case
    s = parsed(listed)
    if kind == "k":
        return label + (f" {2 + 16 * s[0]}+16" if s[0] < 6 else " 0+0")
    if kind == "l":
        return label + (f" known, {s[0]}" if s[0] in (0, 1, 2, 100) else " unknown")
    if kind == "a":
        return label + "".join(mark(s, way) for way in given.split())
    if kind[0] == "w":
        return label + outcome_of_writing(kind, given, s, *rest)
    return label + outcome_of_reading(kind, s, given)


cases = Path(sys.argv[1]) if len(sys.argv) > 1 else Path(__file__).parents[2] / "crates/packet_cases/stdin"
for line in cases.read_text().splitlines():
    print(outcome(line))
