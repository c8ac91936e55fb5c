#!/usr/bin/env python3
"""Writes the cases of crates/session_data_cases, its stdin, and what it must print for them, its stdout. AES-128 ECB is that of the
package `cryptography`; layout, refusals and their order come from document 02 §3, what becomes of the remembered packet nonces from §6, byte
order, keys and room from document 01.

    python3 bench/session_data/outcomes.py [FOLDER]
"""
import sys
from pathlib import Path

from cryptography.hazmat.primitives.ciphers import Cipher, algorithms, modes

KEYS = {"A": 0x10, "M": 0x30, "B": 0x50, "S": 0x70}
CAFEBABE = (0xCAFEBABE).to_bytes(4, "little")
FRESH = ("none", bytes(5), bytes(4), "")


def ecb(letter):
    return Cipher(algorithms.AES(bytes(range(KEYS[letter], KEYS[letter] + 16))), modes.ECB())


def encipher(letter, text):
    return ecb(letter).encryptor().update(text)


def decipher(letter, block):
    return ecb(letter).decryptor().update(block)


def serving(mode):
    """the basic key, or the setup key in setup mode"""
    return "S" if mode == "setup" else "B"


def read(mode, keys, old, block):
    """the answer and the connection after it: an accepted block makes one, a refused one leaves the old"""
    if len(block) != 16:
        return "refused 7", old
    if serving(mode) not in keys:
        return "refused 10", old
    text = decipher(serving(mode), block)
    if text[:4] != CAFEBABE:
        return "refused 11", old
    if text[14:] != bytes(2):
        return "refused 13", old
    if text[4] != 5:
        return "refused 19", old
    return "accepted", ("held", text[5:10], text[10:14], memory_after(old, text[5:10]))


def memory_after(old, nonce):
    """an accepted session nonce empties the memory unless it equals the one held; where the count is above 8 none is held"""
    held, was, _, memory = old
    return memory if held == "held" and was == nonce and int(memory.partition(" ")[0] or 0) <= 8 else ""


def write(mode, keys, nonce, validation, room):
    """the answer and the room after it: 25, then 10, touching nothing; the image stands at the front, the rest stays"""
    if len(room) < 16:
        return "refused 25", room
    if serving(mode) not in keys:
        return "refused 10", room
    text = CAFEBABE + bytes([5]) + nonce + validation + bytes(2)
    return "wrote 16", encipher(serving(mode), text) + room[16:]


def outcome(line):
    """the line of stdout for a line of stdin"""
    def show(answer, connection):
        held, nonce, validation, memory = connection
        return f"{answer}, {held} {nonce.hex()} {validation.hex()} {memory}".rstrip()
    kind, name, mode, keys, given, nonce, validation, *block = line.split("|")
    validation, _, memory = validation.partition(" ")
    nonce, validation = bytes.fromhex(nonce), bytes.fromhex(validation)
    if kind == "read":
        return f"{name}: " + show(*read(mode, keys, (given, nonce, validation, memory), bytes.fromhex(block[0])))
    answer, room = write(mode, keys, nonce, validation, bytes([0xEE]) * int(given))
    back = ", read back " + show(*read(mode, keys, FRESH, room[:16])) if answer == "wrote 16" else ""
    return f"{name}: {answer}, room {room.hex()}{back}"


# From here on the cases; bytes are written in base 16. A memory is a count and its places, but for zero places at the end; an empty one is nothing.
NONCE, VALIDATION = "c1c2c3c4c5", "d6d7d8d9"
HELD = ("held", "a1a2a3a4a5", "b6b7b8b9")
EIGHT = "010203 111213 212223 313233 414243 515253 616263 717273"
MEMORIES = {"one remembered": "1 010203", "eight remembered": "8 " + EIGHT, "eight zeros remembered": "8", "a place beyond count 2": "2 010203 111213 212223",
            "a place beyond count 0": "0 010203", "count 9": "9 " + EIGHT, "count 9 and zeros": "9", "count 264": "264 010203",
            "count 2^32": "4294967296 010203", "count 10^19 - 1": "9999999999999999999 010203"}
OLD = {"old held": HELD, "old none": ("none", "0000000000", "00000000"), "old none with fields": ("none", "9192939495", "86878889")}
PAIRS = {"zero": ("0000000000", "00000000"), "ff": ("ffffffffff", "ffffffff"), "zero and ff": ("0000000000", "ffffffff"),
         "ff and zero": ("ffffffffff", "00000000"), "one to nine": ("0102030405", "06070809"), "mixed": ("7e5c00ff80", "05cafe00"),
         "validation key CAFEBABE": ("0500bebafe", "bebafeca")}


def memory_cases(reading, block, without):
    """what an answer does to the memory of the old connection"""
    def old(memory, flag="held"):
        return flag, HELD[1], f"{HELD[2]} {MEMORIES[memory]}"

    same = block(nonce=HELD[1])
    for memory in MEMORIES:
        yield reading(f"accepted, another nonce, {memory}", block(), old=old(memory))
        yield reading(f"accepted, nonce as held, {memory}", same, old=old(memory))
    for memory in ("eight remembered", "count 9"):
        yield reading(f"accepted, both as held, {memory}", block(nonce=HELD[1], validation=HELD[2]), old=old(memory))
        yield reading(f"accepted, another nonce, old none, {memory}", block(), old=old(memory, "none"))
        yield reading(f"accepted, nonce as in an old none, {memory}", same, old=old(memory, "none"))
        yield reading(f"length 15, {memory}", same[:15], old=old(memory))
        yield reading(f"key absent, {memory}", same, without, old(memory))
        yield reading(f"CAFEBABE wrong, {memory}", block(check="bebafecb"), old=old(memory))
        yield reading(f"padding 0001, {memory}", block(padding="0001"), old=old(memory))
        yield reading(f"protocol 4, {memory}", block(protocol=4), old=old(memory))
        yield reading(f"protocol 4, old none, {memory}", block(protocol=4), old=old(memory, "none"))
    for at in range(5):
        nonce = bytearray.fromhex(HELD[1])
        nonce[at] ^= 1
        yield reading(f"accepted, nonce as held but for byte {at}, one remembered", block(nonce=nonce.hex()), old=old("one remembered"))


def cases_of(mode):
    own, other, only, without = ("S", "B", "---S", "AMB-") if mode == "setup" else ("B", "S", "--B-", "AM-S")

    def text(check="bebafeca", protocol=5, nonce=NONCE, validation=VALIDATION, padding="0000"):
        return bytes.fromhex(check + f"{protocol:02x}" + nonce + validation + padding)

    def block(letter=own, **fields):
        return encipher(letter, text(**fields))

    def reading(name, block, keys="AMBS", old=HELD):
        return f"read|{mode} {name}|{mode}|{keys}|{'|'.join(old)}|{block.hex()}"

    def writing(name, room, keys="AMBS", nonce=NONCE, validation=VALIDATION):
        return f"write|{mode} {name}|{mode}|{keys}|{room}|{nonce}|{validation}"

    good = block()
    for was, old in OLD.items():  # what each answer does to each kind of old connection
        yield reading(f"accepted, {was}", good, old=old)
        yield reading(f"accepted with only its key, {was}", good, only, old)
        yield reading(f"length 15, {was}", good[:15], old=old)
        yield reading(f"key absent, {was}", good, without, old)
        yield reading(f"CAFEBABE wrong, {was}", block(check="bebafecb"), old=old)
        yield reading(f"padding 0001, {was}", block(padding="0001"), old=old)
        yield reading(f"protocol 4, {was}", block(protocol=4), old=old)
    for name, (nonce, validation) in PAIRS.items():
        yield reading(f"accepted {name}", block(nonce=nonce, validation=validation))
        yield writing(f"written {name}", 16, only, nonce, validation)
    yield reading("accepted, nonce as held", block(nonce=HELD[1]))
    yield reading("accepted, validation key as held", block(validation=HELD[2]))
    for flag in ("held", "none"):
        yield reading(f"accepted, both as in an old {flag}", block(nonce=HELD[1], validation=HELD[2]), old=(flag, *HELD[1:]))
    yield from memory_cases(reading, block, without)

    for n in (0, 1, 17, 20, 31, 32, 33, 40, 48):  # 7: as much of good blocks as goes in
        yield reading(f"length {n}", (3 * good)[:n])
    yield reading("good block behind one byte", bytes(1) + good)
    yield reading("good block behind a packet header", bytes([1, 2, 3, 100 if mode == "setup" else 2]) + good)
    for keys in ("A---", "-M--", "--B-" if mode == "setup" else "---S", "----"):  # 10: none of them serves
        yield reading(f"key absent, held {keys}", good, keys)
    for letter in ("A", "M", other):
        yield reading(f"key absent, block under {letter}", block(letter), without)
        yield reading(f"block under {letter}", block(letter))  # 11: another key, though held
    for bit in (0, 7, 8, 15, 16, 23, 24, 31):  # two in each byte
        yield reading(f"CAFEBABE bit {bit} wrong", block(check=(0xCAFEBABE ^ 1 << bit).to_bytes(4, "little").hex()))
    for name, check in {"the other way round": "cafebabe", "halves swapped": "fecabeba", "bytes of halves swapped": "babecafe", "zero": "00000000",
                        "the held validation key": HELD[2]}.items():
        yield reading(f"CAFEBABE {name}", block(check=check))
    yield reading("plain block", text())
    yield reading("block by the inverse cipher", decipher(own, text()))
    yield reading("block of the text back to front", encipher(own, text()[::-1]))
    yield reading("block zero", bytes(16))
    for bit in (7, 60, 120):
        yield reading(f"block bit {bit} wrong", (int.from_bytes(good, "little") ^ 1 << bit).to_bytes(16, "little"))
    for padding in ("0100", "8000", "0080", "0101", "01ff", "ff01", "ffff"):  # 13
        yield reading(f"padding {padding}", block(padding=padding))
    for protocol in (0, 1, 6, 7, 13, 21, 37, 69, 133, 250, 255):  # 19
        yield reading(f"protocol {protocol}", block(protocol=protocol))

    later = {"11": dict(check="cafebabe"), "13": dict(padding="0100"), "13 in the second byte": dict(padding="0001"), "19": dict(protocol=6),
             "19 by 0": dict(protocol=0)}
    for n in (0, 15, 17, 32):  # two and more at once: the first in the order is given
        yield reading(f"7 and 10, length {n}", (2 * good)[:n], without)
    for name, fields in later.items():
        yield reading(f"7 and {name}", block(**fields) + bytes(1))
        yield reading(f"10 and {name}", block(**fields), without)
    for first, second in (("11", "13"), ("11", "13 in the second byte"), ("11", "19"), ("11", "19 by 0"), ("13", "19"), ("13", "19 by 0"),
                          ("13 in the second byte", "19")):
        yield reading(f"{first} and {second}", block(**later[first], **later[second]))
    yield reading("all of 7 to 19", block(check="bebafecb", padding="ffff", protocol=4) + bytes(1), without)
    for room in (0, 1, 15, 16, 17, 32, 40):  # 25, then 10
        for keys in ("AMBS", only, without, "----"):
            yield writing(f"room {room}, held {keys}", room, keys)


if __name__ == "__main__":
    folder = Path(sys.argv[1]) if sys.argv[1:] else Path(__file__).resolve().parents[2] / "crates/session_data_cases"
    lines = [line for mode in ("normal", "setup") for line in cases_of(mode)]
    (folder / "stdin").write_text("".join(f"{line}\n" for line in lines))
    (folder / "stdout").write_text("".join(f"{outcome(line)}\n" for line in lines))
