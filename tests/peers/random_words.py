#!/usr/bin/env python3
"""Compares random words with Python's hmac.

    tests/peers/random_words.py [SCRIPTS [SEED]]

makes SCRIPTS scripts (200) from SEED (1). Each asks for words before and after its device is given a seed of random
bytes and length, by the line `random` and by service 8 of launched code, some of it stopped by its budget or by a span
out of its region. Word n, counted over both from 0, is HMAC-SHA-1 of n in eight bytes, the highest first, with the key
that is HMAC-SHA-1 of `flk-rand` with the seed. Prints each answer that differs and how many were compared; the status
is 1 where one differs. Run it by hand at the top of the repository. It runs ./flicker; FLICKER names another program.
"""
import hashlib
import hmac
import random
import struct
import sys

from scripts import EAX, EBX, EDI, END, GATE, OUTPUTS, Comparison, digits, ended, load

NO_SEED = 6
# mov [edi+20], eax
ANSWER = bytes([0x89, 0x47, 20])
MOST = 4096 // 24


def mac(key, text):
    return hmac.new(key, text, hashlib.sha1).digest()


class Words:
    """The words of a device: none before it has a seed."""

    def __init__(self):
        self.key = None
        self.count = 0

    def seed(self, seed):
        self.key = mac(seed, b"flk-rand")

    def next(self):
        """The next word, or None."""
        if self.key is None:
            return None
        self.count += 1
        return mac(self.key, (self.count - 1).to_bytes(8, "big"))


def line_rows(chance, words):
    """A line that asks for a word, and perhaps binds a name to it."""
    word = words.next()
    if word is None:
        return [("random word", "no seed")]
    if chance.random() < 0.5:
        return [("random", f"ok {digits(word)}")]
    return [("random word", f"ok {digits(word)}"), ("show word+word[3..7]", f"ok {digits(word + word[3:7])}")]


def session_rows(chance, words):
    """A session of code that asks for words, one after another, and puts out each with its answer."""
    count = chance.choice([0, 1, 2, 3, chance.randrange(MOST + 1), MOST])
    places = [OUTPUTS + 24 * i for i in range(count)]
    if places and chance.random() < 0.25:
        places[chance.randrange(count)] = chance.choice([65517, 65536, 2**32 - 20, 2**32 - 1])
    code = [part for place in places for part in (load(EDI, place), load(EAX, 8), GATE, ANSWER)]
    code += [load(EBX, 24 * count)] + END
    budget = chance.choice([len(code), len(code), len(code) + 9, chance.randrange(1, len(code) + 1)])
    end, turns, outputs = "done" if budget >= len(code) else "budget", min(budget, len(code)), b""
    for i, place in enumerate(places):
        if turns < 4 * i + 3:
            break
        if place > 65536 - 20:
            end, turns = "fault 2", 4 * i + 3
            break
        word = words.next()
        outputs += bytes(20) + struct.pack("<I", NO_SEED) if word is None else word + bytes(4)
    made = b"".join(code)
    nonce = chance.randbytes(20)
    return [
        (f"let code {digits(made)}", "ok"),
        (f"image words pal 32 {budget} code", f"ok {32 + len(made)}"),
        (f"session words x: {digits(nonce)}", ended(end, turns, outputs if end == "done" else b"")),
    ]


def script(chance):
    """The lines of a script, and their answers."""
    words, rows = Words(), []
    seeded = chance.randrange(4)
    for i in range(20):
        if i == seeded:
            seed = chance.randbytes(chance.choice([0, 1, 20, 63, 64, 65, chance.randrange(300)]))
            words.seed(seed)
            rows += [(f"seed {digits(seed)}", "ok"), (f"seed {digits(seed[1:])}", "no seeded")]
        rows += session_rows(chance, words) if chance.random() < 0.4 else line_rows(chance, words)
    return rows


def main():
    count = int(sys.argv[1]) if len(sys.argv) > 1 else 200
    chance = random.Random(int(sys.argv[2]) if len(sys.argv) > 2 else 1)
    comparison = Comparison("random words")
    for _ in range(count):
        comparison.script(script(chance))
    print(comparison)
    return 1 if comparison.different else 0


if __name__ == "__main__":
    sys.exit(main())
