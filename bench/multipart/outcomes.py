#!/usr/bin/env python3
"""Writes what crates/multipart_cases must print for the cases in its stdin, by the sentences of document 02 §1.

    python3 bench/multipart/outcomes.py > crates/multipart_cases/stdout
"""
from pathlib import Path

FRESH, DISCARDING = (0, 0, 0), (0, 0, 1)


def take(record, store, part):
    """The answer to a part ('more', 'message' and a length, 'refused' and a number), the record and the store after it."""
    if not part:
        return ("refused", 7), record, store
    parts, size, discarding = record
    # "a record .. whose counts lie outside its limits is taken as fresh"
    if parts > 255 or size > 500 or (parts == 0 and size > 0):
        parts, size, discarding = FRESH
    counter, data = part[0], part[1:]
    # "A 255 is out of turn only while discarding"; "0 first, rising by one"; "after counter 254 the next must be 255"
    in_turn = not discarding and (counter == 255 or (parts < 255 and counter == parts))
    if not in_turn:
        if counter == 255:
            return ("refused", 26), FRESH, store
        if counter == 0 and len(data) <= 500:
            return ("refused", 26), (1, len(data), 0), data + store[len(data):]
        return ("refused", 26), DISCARDING, store
    total = size + len(data)
    if total > 500:
        return ("refused", 27), FRESH if counter == 255 else DISCARDING, store
    store = store[:size] + data + store[total:]
    if counter == 255:
        return ("message", total), FRESH, store
    return ("more",), (parts + 1, total, 0), store


def cut(size, message, room):
    """The cutter's answer, and the room after it."""
    if len(message) > 500:
        return ("refused", 27), room
    if size == 0 or len(message) > 256 * size:
        return ("refused", 17), room
    pieces = [message[at:at + size] for at in range(0, len(message), size)] or [b""]
    image = b"".join(bytes([k]) + piece for k, piece in enumerate(pieces[:-1])) + b"\xff" + pieces[-1]
    if len(room) < len(image):
        return ("refused", 25), room
    return ("wrote", len(image)), image + room[len(image):]


def parsed(text):
    """Bytes listed as 0709+00*96+11."""
    fields = [field.partition("*") for field in text.split("+")]
    return b"".join(bytes.fromhex(pair) * (int(n) if star else 1) for pair, star, n in fields)


def listed(s):
    """Bytes before the ones at the end that are all the same, and these with their number."""
    if not s:
        return ""
    front = s.rstrip(s[-1:])
    return " " + (front.hex() + "+" if front else "") + f"{s[-1]:02x}*{len(s) - len(front)}"


def assembled(record, store, parts):
    """The text of the answers to parts, the record and the store after them."""
    text = ""
    for part in parts:
        answer, record, store = take(record, store, part)
        if answer[0] == "more":
            text += " ."
        else:
            text += " %s %d" % answer + (listed(store[:answer[1]]) if answer[0] == "message" else "")
    return text, record, store


def outcome(kind, first, second, *rest):
    if kind == "a":
        record = tuple(int(n) for n in first.split(" "))
        text, record, store = assembled(record, parsed(second), [parsed(part) for part in rest])
        return text + "; record %d %d %d; store" % record + listed(store)
    size = int(first)
    answer, room = cut(size, parsed(second), b"\xee" * int(rest[0]))
    text = " %s %d; room" % answer + listed(room)
    if answer[0] == "refused":
        return text
    parts = [room[at:min(at + size + 1, answer[1])] for at in range(0, answer[1], size + 1)]
    return text + "; assembled" + assembled(FRESH, bytes(500), parts)[0]


cases = Path(__file__).resolve().parents[2] / "crates" / "multipart_cases" / "stdin"
for line in cases.read_text().splitlines():
    label, *fields = line.split("|")
    print(label + ":" + outcome(*fields))
