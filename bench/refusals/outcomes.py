#!/usr/bin/env python3
"""Writes what crates/refusal_cases must print for the cases in its stdin (their fields: crates/refusal_cases/src/main.rt), by document 01 as changed by
document 02 §2, §6 and §7. AES-CTR is that of the package `cryptography`.

    python3 bench/refusals/outcomes.py [CASES] > crates/refusal_cases/stdout
"""
import sys
from pathlib import Path

from cryptography.hazmat.primitives.ciphers import Cipher, algorithms, modes

REPLIES = {n: "error 9900" for n in (5, 6, 7, 12, 13, 14, 16, 17)} | {
    8: "error 9902", 9: "error 9902", 10: "error 9903", 11: "error 9903", 15: "error 9901",
    18: "code 32", 19: "code 44", 20: "code 36", 21: "code 40", 22: "code 48", 23: "code 32", 24: "code 33"}
MARKS = {0: "S", 1: "A", 2: "AMB", 3: "AMB", 4: "AMBS", 5: "AMBS", 6: "A", 10: "A", 11: "A", 12: "AMB", 13: "AMB", 20: "AMBS", 21: "AMB",
         70: "AMB", 71: "AMB", 72: "AM", 80: "A"}
LEVELS = {0: "A", 1: "M", 2: "B", 100: "S"}
EMPTY = 0, [bytes(3)] * 8


class Refused(Exception):
    """A refusal, by its number."""


def refuse(number, broken):
    if broken:
        raise Refused(number)


def number(s, at, size):
    return int.from_bytes(s[at:at + size], "little")


def ctr(letter, packet_nonce, session_nonce, s):
    """The counter block: packet nonce (3), session nonce (5), counter (8), which starts at 0 for each packet."""
    key = letter.encode() + bytes(range(1, 16))
    cipher = Cipher(algorithms.AES(key), modes.CTR(packet_nonce + session_nonce + bytes(8))).encryptor()
    return cipher.update(s) + cipher.finalize()


def fields(command, q):
    """The fields of a payload, a part as start+length: 23, 24."""
    n = len(q)
    if command == 0:
        refuse(23, n < 98)
        return [q[0], q[1], "2+96", f"98+{n - 98}"]
    if command == 1:
        refuse(23, n != 4)
        refuse(24, number(q, 0, 4) != 0xDEADBEEF)
        return [number(q, 0, 4)]
    if command in (2, 3):
        refuse(23, n != 6 if command == 2 else n < 6)
        refuse(24, q[4] > 4 - command or q[5] != 0)
        return [number(q, 0, 2), number(q, 2, 2), q[4], q[5]] + ([f"6+{n - 6}"] if command == 3 else [])
    if command == 6:
        refuse(23, n != 7)
        refuse(24, q[0] > 1)
        return [q[0], number(q, 1, 4), number(q, 5, 2)]
    if command == 20:
        refuse(23, n != 1)
        refuse(24, q[0] > 100)
        return [q[0]]
    if command == 21:
        refuse(23, n == 0 or n != 1 + 2 * q[0])
        refuse(24, any(value > 100 for value in q[2::2]))
        return [q[0], f"1+{n - 1}"]
    if command == 70:
        refuse(23, n != 11)
        offset = int.from_bytes(q[4:5], "little", signed=True)
        return [number(q, 0, 2), *q[2:6], number(q, 6, 3), number(q, 9, 2), f"offset {offset}"]
    if command == 71:
        refuse(23, n != 7)
        refuse(24, q[6] > 60)
        return [number(q, 0, 2), q[2], number(q, 3, 3), q[6]]
    refuse(23, n != 0)
    return []


def control(packet, setup, level):
    """A control packet from a level, or a plain one where it is None: 19 to 24. Its content, and its payload."""
    refuse(19, packet[0] != 5)
    command = number(packet, 1, 2)
    refuse(20, command not in MARKS)
    refuse(21, not set(MARKS[command]) & set("S" if setup else "AMB"))
    refuse(22, level is not None and level not in MARKS[command])
    return [command, *fields(command, packet[5:])], packet[5:]


def message(m, encrypted, required, setup):
    """14 to 24. The content, the payload, and the nonce and timeout of a session nonce."""
    kind, d = number(m, 0, 2), m[2:]
    refuse(14, kind not in (0, 1, 2, 3, 4, 10, 11))
    refuse(15, kind == 10 and required and not encrypted)
    refuse(16, kind in (0, 1, 4) and encrypted)
    if kind == 10:
        refuse(18, len(d) < 5 or len(d) != 5 + number(d, 3, 2))
        content, q = control(d, setup, "A" if encrypted else None)
        return [10, *content], q, None
    if kind == 11:
        refuse(17, len(d) < 2)
        return [11, number(d, 0, 2), f"2+{len(d) - 2}"], d, None
    refuse(17, len(d) != {0: 1, 1: 6, 2: 2, 3: 11, 4: 0}[kind])
    refuse(17, kind == 0 and d[0] > 15 or kind == 3 and (d[0] > 1 or d[1] > 15))
    if kind == 1:
        return [1, d[0], *d[1:]], d, (d[1:], d[0])
    return [kind] + {0: [*d], 2: [number(d, 0, 2)], 3: [*d[:2], "2+9"], 4: []}[kind], d, None


def blocks(payload, room):
    """n: 7, 25."""
    n, rest = divmod(len(payload) - 4, 16)
    refuse(7, rest or not 1 <= n <= 31)
    refuse(25, room < 16 * n)
    return n


def least(size):
    return -(-size // 16)


def there(held, memory):
    """A count outside its limits is taken as no session."""
    return held and memory[0] <= 8


def judge_nonce(packet_nonce, memory):
    count, places = memory
    refuse(28, packet_nonce in places[:count])


def remember(packet_nonce, memories):
    """Newest first, in eight places."""
    count, places = memories[-1]
    memories.append((min(8, count + 1), [packet_nonce, *places][:8]))


def open_frame(head, payload, keys, setup, required, session, now, room, work, memories):
    """The first 16n bytes of the work buffer go to the list `work`, where they are touched, and the memory after to `memories`, where it changes."""
    major, _, wrapper = head
    nonce, minutes, since, held = session
    refuse(5, major != 1)
    refuse(6, wrapper not in (0, 128))
    if wrapper == 0:
        refuse(7, not 2 <= len(payload) <= 507)
        return message(payload, False, required, setup)
    n = blocks(payload, room)
    refuse(10, payload[3] != 0 or setup or keys[0] == "-")
    refuse(8, not there(held, memories[-1]))
    refuse(9, now < since or now - since >= 60 * minutes)
    judge_nonce(payload[:3], memories[-1])
    text = ctr(keys[0], payload[:3], nonce, payload[4:])
    work.append(bytes(16 * n))
    refuse(11, number(text, 0, 4) != 0xCAFEBABE)
    size = number(text, 4, 2)
    refuse(12, size < 2 or n != least(6 + size))
    remember(payload[:3], memories)
    answer = message(text[6:6 + size], True, required, setup)
    work.append(text)
    return answer


def open_packet(packet, keys, setup, connection, room, work, memories):
    nonce, validation, held = connection
    n = blocks(packet, room)
    level = LEVELS.get(packet[3], "-")
    refuse(10, level not in keys or (level == "S") != setup or level == "-")
    refuse(8, not there(held, memories[-1]))
    judge_nonce(packet[:3], memories[-1])
    text = ctr(level, packet[:3], nonce, packet[4:])
    work.append(bytes(16 * n))
    refuse(11, text[:4] != validation)
    end = 4 + 5 + number(text, 7, 2)
    refuse(18, n != least(end))
    refuse(13, any(text[end:]))
    remember(packet[:3], memories)
    content, q = control(text[4:end], setup, level)
    work.append(text)
    return content, q, None


def parsed(text):
    """Bytes listed as 0709+00*96+11."""
    pieces = [piece.partition("*") for piece in text.split("+")]
    return b"".join(bytes.fromhex(pair) * (int(n) if star else 1) for pair, star, n in pieces)


def memory_of(words):
    """A count and places; those not given are zero."""
    places = [bytes.fromhex(word) for word in words[1:]]
    return (int(words[0]), places + EMPTY[1][len(places):]) if words else EMPTY


def memory_words(memory):
    """Nothing for an empty memory, and no zero places at the end."""
    count, places = memory
    told = max((i + 1 for i in range(8) if any(places[i])), default=0)
    return [str(count), *(place.hex() for place in places[:told])] if count or told else []


def outcome(line):
    label, (route, *setting), keys, state, now, head, room, sealed, given = line.split("|")
    words, size = state.split(), 4 if route == "u" else 3
    payload, work, fields, memories = parsed(given), [b""], words[:size], [memory_of(words[size:])]
    if sealed != "=":
        letter, nonce = sealed.split()
        payload = payload[:4] + ctr(letter, bytes([1, 2, 3]), bytes.fromhex(nonce), payload[4:])
    setup = setting[0] == "s"
    try:
        if route == "u":
            session = (bytes.fromhex(fields[0]), *map(int, fields[1:]))
            content, q, new = open_frame(bytes.fromhex(head), payload, keys, setup, setting[1] == "r", session, int(now), int(room), work, memories)
            if new:
                # "empties the memory unless it equals the one held"
                memories.append(memories[-1] if there(session[3], memories[-1]) and new[0] == session[0] else EMPTY)
                fields = [new[0].hex(), str(new[1]), now, "1"]
        else:
            connection = (bytes.fromhex(fields[0]), bytes.fromhex(fields[1]), int(fields[2]))
            content, q, _ = open_packet(payload, keys, setup, connection, int(room), work, memories)
        answer = " ".join(map(str, content)) + f" accepted, payload {q.hex()}"
    except Refused as refusal:
        n = refusal.args[0]
        # "On the characteristic, 25 and numbers below 18 get no reply"; 28 gets none on either route
        silent = n in (25, 28) or route == "c" and n < 18
        answer = f"refused {n} " + ("no reply" if silent else REPLIES[n])
    after = " ".join(fields + memory_words(memories[-1]))
    after = "kept" if after == state else after
    front = work[-1].rstrip(b"\xee")
    return f"{label} {answer}; session {after}; work {front.hex()}+ee*{int(room) - len(front)}"


cases = Path(sys.argv[1]) if len(sys.argv) > 1 else Path(__file__).parents[2] / "crates/refusal_cases/stdin"
for line in cases.read_text().splitlines():
    if line and not line.startswith("#"):
        print(outcome(line))
