#!/usr/bin/env python3
"""Compares quotes and verdicts with Python's hashlib and hmac.

Each round makes up a session: a random image, up to four texts, inputs, outputs, an end from 0 to 10 and a nonce. Python
computes its quote under a random key, and a line of `verify` is made of all this, or of this with one part changed, or
one that is no line at all; `flicker verify` has to say yes, no, or that it is none. Then scripts for `flicker run`: a
session of code that extends register 17 by its inputs or not, the quote of register 17, and checks, some of them with
one part changed. What this program expects follows from docs/QUOTES.md. Prints how many answers it compared, and each
that differs. Run it by hand at the top of the repository: tests/peers/verify.py [ROUNDS [SEED]]. It wants the built
program; FLICKER names another.
"""
import hashlib
import hmac
import os
import random
import subprocess
import sys

PROGRAM = os.environ.get("FLICKER", "crates/flicker_cli/out/flicker_cli")

# Where the first input byte is 1 it extends register 17 by what follows the second; then it calls the service of the
# second byte on that, and puts out what it gives, or the number of the refusal: see crates/run_tests/src/sealing.rt.
CODE = bytes.fromhex(
    "0fb6060fb66e0183c60283e90289f385c00f8402000000cd80baffffffff89e8cd8085c00f84070000008907b90400000089cb31c0cd80"
)


def sha1(text):
    return hashlib.sha1(text).digest()


def mac(key, text):
    return hmac.new(key, text, hashlib.sha1).digest()


def session_value(session):
    value = bytes(20)
    for text in (
        [session["image"]]
        + [b"pal" + text for text in session["texts"]]
        + [b"in" + session["inputs"], b"out" + session["outputs"]]
        + [b"end" + bytes([session["end"]]) + session["nonce"], b"close"]
    ):
        value = sha1(value + sha1(text))
    return value


def quote_of(key, nonce, value):
    return value + mac(key, b"FLKQ" + nonce + value)


def word(some, value):
    """A word that spells the bytes, in one of several ways."""
    way = some.randrange(5)
    if way == 0 and value and value == value[:1] * len(value):
        return "rep:%02x*%d" % (value[0], len(value))
    if way == 1 and value:
        cut = some.randrange(len(value) + 1)
        return "x:%s+x:%s" % (value[:cut].hex(), value[cut:].hex())
    if way == 2:
        return "x:%s[0..%d]" % ((value + b"\0").hex(), len(value))
    if way == 3 and value:
        at = some.randrange(len(value))
        flipped = value[:at] + bytes([value[at] ^ 1]) + value[at + 1 :]
        return "x:%s~%d" % (flipped.hex(), at)
    return "x:" + value.hex()


def made_up(some):
    size = lambda: some.choice([0, 1, 2, 19, 20, 21, 63, 64, 65, 200, 4096])
    return {
        "image": some.randbytes(size()),
        "texts": [some.randbytes(some.choice([0, 1, 20, 300])) for _ in range(some.randrange(5))],
        "inputs": some.randbytes(size()),
        "outputs": some.randbytes(size()),
        "end": some.randrange(11),
        "nonce": some.randbytes(20),
    }


def changed(some, value):
    if value and some.randrange(3):
        at = some.randrange(len(value))
        return value[:at] + bytes([value[at] ^ (1 << some.randrange(8))]) + value[at + 1 :]
    return value + b"\0" if some.randrange(2) or not value else value[:-1]


def with_a_change(some, session, quote):
    session = dict(session)
    part = some.choice(["image", "texts", "inputs", "outputs", "end", "nonce", "quote"])
    if part == "quote":
        return session, changed(some, quote)
    if part == "end":
        session["end"] = some.choice([end for end in range(256) if end != session["end"]])
    elif part == "nonce":
        nonce = bytearray(session["nonce"])
        nonce[some.randrange(20)] ^= 1 << some.randrange(8)
        session["nonce"] = bytes(nonce)
    elif part == "texts":
        texts = list(session["texts"])
        way = some.randrange(3)
        if texts and way == 0:
            texts.pop(some.randrange(len(texts)))
        elif texts and way == 1:
            at = some.randrange(len(texts))
            texts[at] = changed(some, texts[at])
        else:
            texts.insert(some.randrange(len(texts) + 1), some.randbytes(some.randrange(3)))
        session["texts"] = texts
    else:
        session[part] = changed(some, session[part])
    return session, quote


def words_of(some, key, quote, session):
    return (
        [word(some, key), word(some, quote), word(some, session["image"])]
        + [word(some, session["inputs"]), word(some, session["outputs"])]
        + [some.choice(["%d", "0x%x", "%04d"]) % session["end"], word(some, session["nonce"])]
        + [word(some, text) for text in session["texts"]]
    )


def line_of(some, words):
    blank = lambda: "".join(some.choice(" \t") for _ in range(some.randrange(1, 3)))
    line = some.choice(["", " ", "\t"])
    line += "".join(each + blank() for each in words[:-1]) + words[-1]
    return line + some.choice(["", " ", "\t "]) + some.choice(["", "\n", "\r\n", "\r"])


def spoiled(some, words):
    """The words, one of which is none that may stand there."""
    words = list(words)
    way = some.randrange(6)
    if way == 0:
        return words[: some.randrange(7)] or ["x:"]
    if way == 1:
        words[some.choice([0, 6])] = "x:" + some.randbytes(some.choice([0, 19, 21])).hex()
    elif way == 2:
        words[5] = some.choice(["256", "0x100", "-1", "", "x:00", "99999999999"]) or "end"
    elif way == 3:
        words[some.choice([i for i in range(len(words)) if i != 5])] = "quote"
    elif way == 4:
        words[some.choice([1, 2, 3, 4])] += "[1..0]"
    else:
        words[some.choice([1, 2, 3, 4])] = "x:0"
    return words


def verify(line):
    ran = subprocess.run([PROGRAM, "verify"], input=line.encode(), capture_output=True, check=False)
    return ran.returncode, ran.stdout.decode(), ran.stderr.decode()


SAID = {
    "yes": (0, "yes\n", ""),
    "no": (6, "no\n", ""),
    "none": (1, "", "flicker: bad verify line\n"),
}


def compare_lines(some, rounds):
    differences = 0
    for _ in range(rounds):
        key, session = some.randbytes(20), made_up(some)
        quote = quote_of(key, session["nonce"], session_value(session))
        shown = session
        if some.randrange(2):
            shown, quote = with_a_change(some, session, quote)
        same = quote == quote_of(key, shown["nonce"], session_value(shown))
        said = "yes" if same else "no"
        words = words_of(some, key, quote, shown)
        if some.randrange(6) == 0:
            words, said = spoiled(some, words), "none"
        line = line_of(some, words)
        found = verify(line)
        if found != SAID[said]:
            differences += 1
            print("differs: %r: %s, and not %s" % (line, found, SAID[said]))
    return rounds, differences


def script(some):
    """A script, and the answers that it must have, None for those that don't matter here."""
    seed, nonce = some.randbytes(some.randrange(40)), some.randbytes(20)
    key = mac(seed, b"flk-quote")
    image = (32).to_bytes(2, "little") + (32 + len(CODE)).to_bytes(2, "little") + b"FLKC"
    image += bytes([1, 0, 0, 0]) + (100).to_bytes(4, "little") + bytes(16) + CODE
    lines = ["seed x:" + seed.hex(), "image s pal 32 100 x:" + CODE.hex(), "let n x:" + nonce.hex()]
    wanted = ["ok", "ok %d" % len(image), "ok"]
    for _ in range(some.randrange(1, 5)):
        text, extends = some.randbytes(some.choice([0, 1, 20, 500])), some.randrange(2)
        session = {
            "image": image,
            "texts": [text] * (1 + extends),
            "inputs": bytes([extends, 1]) + text,
            "outputs": bytes(len(text)),
            "end": 0,
            "nonce": nonce,
        }
        value = session_value(session)
        lines.append("session s x:%s n o" % session["inputs"].hex())
        wanted.append(None)
        if some.randrange(4) == 0:
            lines.append("extend 17 x:00")
            wanted.append("ok")
            value = sha1(value + sha1(b"host\0"))
        if some.randrange(4) == 0:
            lines.append("extend %d x:00" % some.choice([0, 16, 18, 23]))
            wanted.append("ok")
        quote = quote_of(key, nonce, value)
        lines.append("quote n q")
        wanted.append("ok x:" + quote.hex())
        for _ in range(3):
            shown, bytes_shown = session, quote
            if some.randrange(2):
                shown, bytes_shown = with_a_change(some, session, quote)
            yes = bytes_shown == quote_of(key, shown["nonce"], session_value(shown))
            words = words_of(some, key, bytes_shown, shown)[1:]
            lines.append("check " + " ".join(words))
            wanted.append("ok yes" if yes else "ok no")
    return lines, wanted


def compare_scripts(some, rounds):
    compared = differences = 0
    for _ in range(rounds):
        lines, wanted = script(some)
        text = "\n".join(lines) + "\n"
        ran = subprocess.run([PROGRAM, "run"], input=text.encode(), capture_output=True, check=False)
        found = [line.split(" ", 1)[1] for line in ran.stdout.decode().splitlines()]
        for line, want, answer in zip(lines, wanted, found + [""] * (len(lines) - len(found))):
            if want is not None:
                compared += 1
                if want != answer:
                    differences += 1
                    print("differs: %r: %r, and not %r" % (line, answer, want))
    return compared, differences


def main():
    rounds = int(sys.argv[1]) if len(sys.argv) > 1 else 200
    seed = int(sys.argv[2]) if len(sys.argv) > 2 else 1
    some = random.Random(seed)
    lines, of_lines = compare_lines(some, rounds)
    answers, of_answers = compare_scripts(some, rounds)
    print("%d lines of verify and %d answers of scripts compared" % (lines, answers))
    print("%d differences" % (of_lines + of_answers))
    return 1 if of_lines + of_answers else 0


if __name__ == "__main__":
    sys.exit(main())
