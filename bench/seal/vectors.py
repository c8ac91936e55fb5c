#!/usr/bin/env python3
"""Writes what crates/seal_vectors must print for the cases in its stdin. The blocks come from AES-CTR of the package `cryptography`, and layout and refusals from document 01.

    python3 bench/seal/vectors.py > crates/seal_vectors/stdout
"""
from pathlib import Path

from cryptography.hazmat.primitives.ciphers import Cipher, algorithms, modes

SESSION_NONCE = bytes([0x51, 0x52, 0x53, 0x54, 0x55])
VALIDATION = bytes([0xD0, 0xD1, 0xD2, 0xD3])
KEYS = {"admin": 0x10, "member": 0x30, "basic": 0x50, "setup": 0x70}
LEVELS = {"admin": 0, "member": 1, "basic": 2, "setup": 100}


def key(level):
    return bytes(range(KEYS[level], KEYS[level] + 16))


def serves(mode, level, keys):
    """level 100 has a key only in setup mode, levels 0, 1 and 2 only in normal mode, and each key may be absent"""
    return (level == "setup") == (mode == "setup") and level[0].upper() in keys


def nonce(n):
    return bytes([n % 256, n // 256, 0xA5])


def fill(n):
    return bytes((7 * i + n) % 256 for i in range(n))


def image(level, number, n, text):
    """packet nonce, key ID or level, blocks; the counter starts at 0: eight zero bytes behind the two nonces"""
    text += bytes(-len(text) % 16)
    counter = nonce(n) + SESSION_NONCE + bytes(8)
    cipher = Cipher(algorithms.AES(key(level)), modes.CTR(counter)).encryptor()
    return nonce(n) + bytes([number]) + cipher.update(text) + cipher.finalize()


def show(name, n, sealed, limits, room, held):
    """17 for a size outside the limits, then 25, then 10; a refusal touches nothing, and bytes behind the image stay"""
    if not limits[0] <= n <= limits[1]:
        answer, image = "refused 17", b""
    elif room < len(sealed):
        answer, image = "refused 25", b""
    elif not held:
        answer, image = "refused 10", b""
    else:
        answer, image = f"wrote {len(sealed)}", sealed
    after = image + bytes([0xEE]) * (room - len(image))
    print(f"{name} {n}: {answer}, room {after.hex()}" + (", opened" if image else ""))


def message(n, room, mode, keys):
    text = (0xCAFEBABE).to_bytes(4, "little") + n.to_bytes(2, "little") + fill(n)
    show("message", n, image("admin", 0, n, text), (2, 490), room, serves(mode, "admin", keys))


def packet(n, room, mode, level, keys):
    size = max(n - 5, 0).to_bytes(2, "little")
    bytes_ = fill(n)
    bytes_ = (bytes_[:3] + size + bytes_[5:])[:n]
    show("packet", n, image(level, LEVELS[level], n, VALIDATION + bytes_), (5, 492), room, serves(mode, level, keys))


for line in (Path(__file__).resolve().parents[2] / "crates/seal_vectors/stdin").read_text().splitlines():
    kind, mode, level, n, room, keys = line.split()
    if kind == "message":
        message(int(n), int(room), mode, keys)
    else:
        packet(int(n), int(room), mode, next(name for name, number in LEVELS.items() if number == int(level)), keys)
