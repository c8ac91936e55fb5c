"""Writes a long capture and what the line lister must print for it: crates/long_listing/stdin and stdout. Usage: python3 bench/line/long.py

The capture is made of frames, noise and faults one by one, and each adds its own lines, so that the output is known without decoding:
a refusal's place is the number of bytes that its fault was made of, and for a cut the next start byte too.
It takes three reads of 65536 bytes and several output buffers in each. The first seam lies between 5C and 3E of a frame, the second
between the two bytes of a frame's size."""
from pathlib import Path

READ = 65536
capture = bytearray()
lines = []
state = 1


def number(below):
    """the next of a fixed row of numbers"""
    global state
    state = (state * 6364136223846793005 + 1442695040888963407) % 2**64
    return (state >> 33) % below


def some_bytes(count):
    return bytes(number(256) for _ in range(count))


def crc(data):
    value = 0xFFFF
    for byte in data:
        value ^= byte << 8
        for _ in range(8):
            value = (value << 1 ^ 0x1021) & 0xFFFF if value & 0x8000 else value << 1
    return value


def escaped(data):
    out = bytearray()
    for byte in data:
        out += bytes([0x5C, byte ^ 0x40]) if byte in (0x7E, 0x5C) else bytes([byte])
    return bytes(out)


def image(wrapper, payload, damage=0):
    body = bytes([1, 0, wrapper]) + payload
    check = crc(body) ^ damage
    return b"\x7e" + escaped((len(body) + 2).to_bytes(2, "little") + body + check.to_bytes(2, "little"))


def frame(wrapper, payload):
    capture.extend(image(wrapper, payload))
    lines.append(f"frame {wrapper} {len(payload)}")


def noise(count):
    capture.extend(b if b != 0x7E else 0x7D for b in some_bytes(count))


def refused(no, broken):
    """a broken frame's bytes up to the one at fault"""
    capture.extend(broken)
    lines.append(f"refused {no} {len(broken)}")


def cut(front):
    """1: a frame's front, and at once the next frame, whose start byte is at fault"""
    capture.extend(front)
    lines.append(f"refused 1 {len(front) + 1}")
    frame(0, some_bytes(number(12)))


def bad_escape():
    """2: 5C before a byte that is neither 3E, 1C nor 7E"""
    refused(2, b"\x7e" + escaped(b"\x20\x00" + some_bytes(number(9))) + b"\x5c" + bytes([(0x41, 0x5C, 0x3F, 0x00)[number(4)]]))


def bad_size():
    """3: 0 to 4, and 513 and above"""
    size = (number(5), 513, 513 + number(65023), 65535)[number(4)]
    refused(3, b"\x7e" + escaped(size.to_bytes(2, "little")))


def bad_crc():
    """4: a bit of the CRC differs"""
    refused(4, image(128, some_bytes(number(30)), 1 << number(16)))


def anything():
    kind = number(24)
    wrapper = (0, 128)[number(2)]
    if kind < 12:
        frame(wrapper, some_bytes(number(10)))
    elif kind < 15:
        frame(wrapper, some_bytes(10 + number(90)))
    elif kind == 15:
        frame(wrapper, some_bytes(100 + number(408)))
    elif kind == 16:
        frame((7, 42, 126, 255)[number(4)], b"\x7e\x5c" * number(4))
    elif kind == 17:
        frame(wrapper, some_bytes((87, 121)[number(2)]))
    elif kind == 18:
        noise(1 + number(40))
    elif kind == 19:
        whole = image(wrapper, some_bytes(20))
        cut(whole[:1 + number(len(whole) - 1)])
    elif kind == 20:
        cut(b"\x7e\x09\x00\x01\x5c")
    else:
        (bad_escape, bad_size, bad_crc)[kind - 21]()


def up_to(place):
    """anything, and noise where nothing long fits any more"""
    while len(capture) + 1100 < place:
        anything()
    noise(place - len(capture))


# 5C at 65535 and 3E at 65536: the image has eight bytes before the payload's first 7E is escaped
up_to(READ - 1 - 8)
frame(128, b"\x00\x00\x7e" + some_bytes(33))
assert capture[READ - 1 : READ + 1] == b"\x5c\x3e"

# the start byte and the size's low byte before 131072, its high byte behind it
up_to(2 * READ - 2)
frame(0, some_bytes(300))
assert capture[2 * READ - 2 : 2 * READ + 1] == b"\x7e\x31\x01"

frame(0, some_bytes(507))
frame(128, some_bytes(500))
frame(128, b"")
up_to(150000)
capture.extend(image(0, some_bytes(40))[:-1])
lines.append("end")

here = Path(__file__).resolve().parents[2] / "crates/long_listing"
(here / "stdin").write_bytes(capture)
(here / "stdout").write_text("".join(line + "\n" for line in lines))
