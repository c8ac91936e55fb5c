#!/usr/bin/env python3
"""Writes the cases of crates/capture_cases: captures and rooms, with the places where a decoder that looks ahead can go wrong.

    python3 bench/capture/cases.py > crates/capture_cases/stdin
"""
from binascii import crc_hqx

HELLO = "7e080001+00*5+b04b"
ROOMS = "4|40"


def written(payload, wrapper=0, version=(1, 0)):
    """A frame on the line."""
    covered = bytes([*version, wrapper]) + payload
    plain = (len(covered) + 2).to_bytes(2, "little") + covered + crc_hqx(covered, 0xFFFF).to_bytes(2, "little")
    return b"\x7e" + b"".join(bytes([0x5C, b ^ 0x40]) if b in (0x7E, 0x5C) else bytes([b]) for b in plain)


def case(label, capture, rooms=ROOMS):
    print(f"{label}|{rooms}|{capture if isinstance(capture, str) else capture.hex()}")


def lines():
    """Document 01's refusals, each with a frame behind it."""
    yield "no byte", ""
    yield "hello", HELLO
    yield "hello, noise, size 0", HELLO + "417e0000"
    yield "cut by a start byte", "7e080001" + HELLO
    yield "start after start", "7e" + HELLO
    yield "5C 7E in the size's low byte", "7e5c" + HELLO
    yield "5C 7E in the size's high byte", "7e085c" + HELLO
    yield "5C 7E 7E", "7e085c7e" + HELLO
    yield "5C 5C", "7e5c5c" + HELLO
    yield "5C 41", "7e5c41" + HELLO
    yield "5C 41 in the size's high byte", "7e085c41" + HELLO
    yield "ends behind 5C in the size's low byte", "7e5c"
    yield "ends behind 5C in the size's high byte", "7e085c"
    yield "size 0", "7e0000" + HELLO
    yield "size 4", "7e0400" + HELLO
    yield "size 513", "7e0102" + HELLO
    yield "size 126 times 257", "7e5c3e5c3e" + HELLO
    yield "wrong CRC, low byte", "7e080001+00*5+b14b" + HELLO
    yield "wrong CRC, high byte", "7e080001+00*5+b04a" + HELLO
    yield "5C before a start byte", "5c" + HELLO
    yield "5C 3E before a start byte", "5c3e" + HELLO
    yield "refusals of each number", "7e7e5c417e04007e080001+00*5+b04a"
    yield "three frames", HELLO + "41" + written(b"\x01\x02", 128).hex() + written(b"\x03" * 20).hex()
    yield "a frame, a refusal, a frame", written(b"\x01\x02").hex() + "7e5c00" + written(b"\x03").hex()
    yield "empty payload", written(b"").hex()
    yield "major 2, minor 9, type 5", written(b"\x07", 5, (2, 9)).hex()
    yield "major 126, minor 92, type 255", written(b"\x07", 255, (126, 92)).hex()


def rooms():
    """Answers of one entry and 3 bytes, 2 entries and 0 bytes, 3 entries and 22 bytes; rooms about as long, and longer than the capture."""
    three = written(b"\x01\x02").hex() + "7e5c00" + written(b"\x03" * 20).hex()
    for capture, entries, size in ((HELLO, 1, 3), ("7e7e5c41", 2, 0), (three, 3, 22)):
        for e in (entries - 1, entries, entries + 1, 64):
            for b in sorted({0, size - 1, size, size + 1, 64}):
                if b >= 0:
                    yield f"{entries} entries and {size} bytes, rooms {e} {b}", capture, f"{e}|{b}"


def escapes():
    """A byte that is escaped, a 7E, a 5C 7E and a 5C 41 behind 0 to 34 payload bytes, and at the last byte of the CRC; captures that end there."""
    # a CRC whose last byte goes out as 5C 3E
    last = next(p for n in range(65536) if written(p := n.to_bytes(2, "little") + b"\x01" * 30)[-2:] == b"\x5c\x3e")
    frame = written(last)
    hello = bytes.fromhex("7e0800010000000000b04b")
    yield "the last CRC byte is escaped", frame
    for name, tail in (("ends behind its 5C", b""), ("5C 7E", b"\x7e" + hello[1:]), ("5C 41", b"\x41" + hello), ("5C 1C", b"\x1c" + hello)):
        yield f"the last CRC byte: {name}", frame[:-1] + tail
    yield "the last CRC byte: the capture ends before its 5C", frame[:-2]
    for k in range(35):
        yield f"7E as 5C 3E behind {k} bytes", written(b"\x11" * k + b"\x7e\x22")
        yield f"7E as 5C 3E, twice, behind {k} bytes", written(b"\x11" * k + b"\x7e\x7e\x5c")
        front = written(b"\x11" * 40)[:6 + k]
        yield f"7E behind {k} bytes", front + hello
        yield f"5C 7E behind {k} bytes", front + b"\x5c" + hello
        yield f"5C 41 behind {k} bytes", front + b"\x5c\x41" + hello
        yield f"ends behind {k} bytes", front
        yield f"ends behind {k} bytes and 5C", front + b"\x5c"
    for k in range(1, 11):
        yield f"hello ends behind {k} bytes", hello[:k]
    for k in range(18):
        yield f"hello behind {k} bytes of noise", b"\x41" * k + hello


def long():
    """The limits of a payload and of a capture."""
    high = "7e0002010000+01*507+634d"
    yield "size 126, which is escaped", written(b"\x11" * 121).hex(), "1|121"
    yield "size 92, which is escaped", written(b"\x11" * 87).hex(), "1|87"
    yield "size 512", high, "1|507"
    yield "size 512, a byte short of room", high, "1|506"
    yield "size 512, all of the payload escaped", written(b"\x7e\x5c" * 253 + b"\x7e", 128).hex(), "2|600"
    yield "size 512, wrong CRC", "7e0002010000+01*507+634e", "2|600"
    yield "size 512, a 7E as its last byte", "7e0002010000+01*507+637e080001+00*5+b04b", "2|600"
    yield "place 1027, the greatest there is", "7e0002" + "5c3e" * 510 + "5c3e5c41", "2|600"
    yield "65,536 bytes 7E", "7e*65536", "65535|0"
    yield "65,536 bytes 7E, an entry short of room", "7e*65536", "65534|0"
    yield "65,536 bytes 7E, more room", "7e*65536", "65600|65600"
    yield "65,537 bytes 7E", "7e*65537", "65600|65600"
    yield "65,537 bytes 7E, no room", "7e*65537", "0|0"
    yield "65,536 bytes of noise", "41*65536", "0|0"
    yield "65,537 bytes of noise", "41*65537", "0|0"
    yield "65,600 bytes of noise", "41*65600", "1|1"
    yield "65,536 bytes, hello last", "41*65525+" + HELLO, "1|3"
    yield "65,536 bytes, hello last but for a byte", "41*65526+7e080001+00*5+b0", "1|3"
    yield "65,537 bytes, hello last", "41*65526+" + HELLO, "1|3"
    yield "65,536 bytes, 7E last", "41*65535+7e", "0|0"
    yield "65,536 bytes, 7E 7E last", "41*65534+7e7e", "1|0"
    yield "65,536 bytes, 5C 41 last", "41*65533+7e5c41", "1|0"
    many = high * 126 + HELLO
    for e, b in ((127, 63885), (126, 63885), (127, 63884), (65536, 65536)):
        yield f"126 frames of 507 bytes and hello, rooms {e} {b}", many, f"{e}|{b}"


def main():
    for label, capture in (*lines(), *escapes()):
        case(label, capture)
    for label, capture, room in (*rooms(), *long()):
        case(label, capture, room)


if __name__ == "__main__":
    main()
