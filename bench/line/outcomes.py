#!/usr/bin/env python3
"""Writes what crates/line_cases must print for the cases in its stdin, by the sentences of document 01, 'Line', and document 02 §4 and §8.

    python3 bench/line/outcomes.py < crates/line_cases/stdin > crates/line_cases/stdout

With the word list it writes what the line lister must print for a capture:

    python3 bench/line/outcomes.py list < crates/sample_listing/stdin > crates/sample_listing/stdout

with decode what the capture decoder must print for one, and with capture what crates/capture_cases must print for its stdin:

    python3 bench/line/outcomes.py decode < crates/capture_decoder/stdin > crates/capture_decoder/stdout
    python3 bench/line/outcomes.py capture < crates/capture_cases/stdin > crates/capture_cases/stdout

A frame is found by looking ahead in the bytes, and a place is worked out from where in them the frame's start byte stands.
"""
import sys
from binascii import crc_hqx
from collections import namedtuple
from itertools import groupby

START, ESCAPE, LAST = 0x7E, 0x5C, 1029
Record = namedtuple("Record", "inside escaped low got size count")
IDLE = Record(0, 0, 0, 0, 5, 0)
STARTED = Record(1, 0, 0, 0, 5, 1)


def crc(covered):
    """Polynomial 1021, start FFFF; low byte first."""
    return crc_hqx(covered, 0xFFFF).to_bytes(2, "little")


def unfinished(record):
    """Whether a record is inside an unfinished frame; any other is taken as idle."""
    return record.inside == 1 and 5 <= record.size <= 512 and record.got < record.size + 2 and record.count < LAST


def unescaped(wire):
    """The bytes that a stretch without 7E stands for, each with the index of its last byte on the line; and the index of the 5C after
    which the stretch ends or goes wrong, or None."""
    values, i = [], 0
    while i < len(wire):
        if wire[i] != ESCAPE:
            values.append((wire[i], i))
            i += 1
        elif wire[i + 1:i + 2] in (b"\x3e", b"\x1c"):
            values.append((wire[i + 1] ^ 0x40, i + 1))
            i += 2
        else:
            return values, i
    return values, None


def rest_of_frame(record, store, data, at, origin):
    """What data from the index at on does to a record inside an unfinished frame whose start byte has the index origin in data (below 0
    where it came earlier): the event or None, the record after it, and the index behind the bytes that it took."""
    # the bytes up to place 1029, or up to the first start byte among them
    limit = min(len(data), origin + LAST)
    cut = data.find(START, at, limit)
    end = limit if cut < 0 else cut
    # a 5C that came earlier is put back in front
    behind = at - record.escaped
    values, open_escape = unescaped(b"\x5c" * record.escaped + data[at:end])

    def refused(number, index):
        return ("refused", number, index - origin + 1), IDLE, index + 1

    low, size = record.low, record.size
    missing = max(0, 2 - record.got)
    if missing and values:
        field = [low] * record.got + [value for value, _ in values[:missing]]
        if len(field) == 2:
            low, size = 0, field[0] + 256 * field[1]
            if not 5 <= size <= 512:
                return refused(3, behind + values[missing - 1][1])
        else:
            low = field[0]
    kept = max(0, record.got - 2)
    body = values[missing:][:size - kept]
    for place, (value, _) in enumerate(body, kept):
        store[place] = value
    if kept + len(body) == size:
        last = behind + body[-1][1]
        if crc(store[:size - 2]) != store[size - 2:size]:
            return refused(4, last)
        return ("frame", *store[:3], bytes(store[3:size - 2])), IDLE, last + 1
    if open_escape is not None and behind + open_escape + 1 < end:
        return refused(2, behind + open_escape + 1)
    if cut >= 0:
        return ("refused", 1, cut - origin + 1), STARTED, cut + 1
    escaped = 0 if open_escape is None else 1
    return None, Record(1, escaped, low, record.got + len(values), size, end - origin), end


def receive(record, store, data):
    """The events of data fed to a record, each with the index of its frame's start byte, and the record after it; the store is changed in
    place."""
    events, at, origin = [], 0, -record.count
    while at < len(data):
        if unfinished(record):
            start = origin
            event, record, at = rest_of_frame(record, store, data, at, origin)
            if event:
                events.append((start, event))
        else:
            # "each byte but 7E is dropped"
            at = data.find(START, at) + 1
            if at == 0:
                break
            record = STARTED
        if record == STARTED:
            origin = at - 1
    return events, record


def write(wrapper, payload, room):
    """The frame writer's answer, and the room after it."""
    if wrapper not in (0, 128) or len(payload) > 507:
        return ("refused", 17), room
    covered = bytes([1, 0, wrapper]) + payload
    plain = (len(covered) + 2).to_bytes(2, "little") + covered + crc(covered)
    image = b"\x7e" + b"".join(bytes([ESCAPE, b ^ 0x40]) if b in (START, ESCAPE) else bytes([b]) for b in plain)
    if len(room) < len(image):
        return ("refused", 25), room
    return ("wrote", len(image)), image + room[len(image):]


def decode(data, entries, room):
    """The decoder's answer, its list and its buffer as bytes, and the events where there are any; all bytes lent are EE."""
    lists, buffer = b"\xee" * 8 * entries, b"\xee" * room
    if len(data) > 65536:
        return (17,), lists, buffer, []
    events = receive(IDLE, bytearray(512), data)[0]
    payloads = b"".join(event[4] for _, event in events if event[0] == "frame")
    if entries < len(events) or room < len(payloads):
        return (25,), lists, buffer, []
    front = b"".join(entry(*found) for found in events)
    return (len(events), len(payloads)), front + lists[len(front):], payloads + buffer[len(payloads):], events


def entry(offset, event):
    """Eight bytes, low byte first: kind, payload length or place, major, minor, wrapper type, offset; as docs/DECISIONS.md fixes them."""
    if event[0] == "refused":
        kind, count, rest = event[1], event[2], bytes(3)
    else:
        kind, count, rest = 5, len(event[4]), bytes(event[1:4])
    return bytes([kind]) + count.to_bytes(2, "little") + rest + offset.to_bytes(2, "little")


def parsed(text):
    """Bytes listed as 0709+00*96+11."""
    fields = [field.partition("*") for field in text.split("+")]
    return b"".join(bytes.fromhex(pair) * (int(n) if star else 1) for pair, star, n in fields)


def runs(s):
    """Bytes as ` 7e*3 5c*1`."""
    return "".join(f" {byte:02x}*{len(list(same))}" for byte, same in groupby(s))


def told(event):
    if event[0] == "refused":
        return " refused %d %d" % event[1:]
    _, major, minor, wrapper, payload = event
    return f" frame {major} {minor} {wrapper} {len(payload)}" + runs(payload)


def outcome(kind, *fields):
    if kind == "w":
        answer, room = write(int(fields[0]), parsed(fields[1]), b"\xee" * int(fields[2]))
        return " %s %d; room" % answer + runs(room)
    record, store = IDLE, bytearray(512)
    if kind == "r":
        record = Record(*(int(n) for n in fields[0].split(" ")))
        front = parsed(fields[1])
        store[:len(front)] = front
    events, record = receive(record, store, parsed(fields[-1]))
    return "".join(told(event) for _, event in events) + "; changed by cuts 0; record %d %d %d %d %d %d; store" % record + runs(store)


def decoder_outcome(entries, room, data):
    answer, lists, buffer, events = decode(parsed(data), int(entries), int(room))
    if len(answer) == 1:
        said = " refused %d" % answer
    else:
        said = " entries %d, bytes %d" % answer
        for offset, event in events[:8]:
            numbers = event[1:] if event[0] == "refused" else (*event[1:4], len(event[4]))
            said += f"; {offset} {event[0]} " + " ".join(map(str, numbers))
            if event[0] == "frame" and event[4]:
                said += " " + event[4].hex()
    each = [lists[k:k + 8].hex() for k in range(0, len(lists), 8)]
    said += "; list" + ("".join(" " + e for e in each) if len(each) <= 8 else " CRC " + crc(lists).hex())
    said += "; buffer " + (buffer.hex() if len(buffer) <= 64 else "CRC " + crc(buffer).hex())
    return said + ("; receiver same; lister same" if len(answer) == 2 else "")


def lister_line(event):
    return "refused %d %d" % event[1:] if event[0] == "refused" else f"frame {event[3]} {len(event[4])}"


# when a refusal is given: document 01's table
REASONS = {
    1: "7E inside an unfinished frame",
    2: "5C followed by other than 3E, 1C or 7E",
    3: "size below 5 or above 512",
    4: "CRC differs",
}


def decoder_line(offset, event):
    line = f"{offset} {lister_line(event)}"
    if event[0] == "refused":
        return f"{line}: {REASONS[event[1]]}"
    payload = event[4]
    return line + (f": {payload[:32].hex()}" if payload else "") + (".." if len(payload) > 32 else "")


def events_of(mode):
    """The lines of a capture; of one that is too long the decoder prints none."""
    data = sys.stdin.buffer.read()
    if mode == "decode" and len(data) > 65536:
        return
    for offset, event in receive(IDLE, bytearray(512), data)[0]:
        print(lister_line(event) if mode == "list" else decoder_line(offset, event))
    print("end")


def main():
    mode = " ".join(sys.argv[1:])
    if mode in ("list", "decode"):
        events_of(mode)
        return
    outcomes = {"": outcome, "capture": decoder_outcome}
    if mode not in outcomes:
        sys.exit("usage: outcomes.py [list|decode|capture]")
    for line in sys.stdin.read().splitlines():
        label, *fields = line.split("|")
        print(label + ":" + outcomes[mode](*fields))


if __name__ == "__main__":
    main()
