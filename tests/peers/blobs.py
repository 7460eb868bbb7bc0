#!/usr/bin/env python3
"""Compares blobs, keys and what opens with Python's hmac and hashlib.

Each script gives a device a seed of random bytes and length. Sessions of examples/keeper.asm seal random bytes, and open
the blobs again, whole and changed; and the host opens blobs that are made here, for register 17 as it is after power-on,
some of them changed. The answers that this program expects follow from docs/BLOBS.md. Prints how many answers it
compared, and each that differs. Run it by hand at the top of the repository: tests/peers/blobs.py [SCRIPTS [SEED]]. It
wants the built program; FLICKER names another.
"""
import hashlib
import hmac
import os
import random
import struct
import subprocess
import sys

PROGRAM = os.environ.get("FLICKER", "crates/flicker_cli/out/flicker_cli")
CODE = bytes.fromhex(open("examples/keeper.hex", encoding="ascii").read())
POWER_ON = b"\xff" * 20
LABELS = {"sealing": b"flk-seal", "masking": b"flk-mask"}
LONGEST = 2048


def sha1(text):
    return hashlib.sha1(text).digest()


def mac(key, text):
    return hmac.new(key, text, hashlib.sha1).digest()


class Device:
    """The keys of a seed, and the serial of the next blob."""

    def __init__(self, seed):
        self.keys = {name: mac(seed, label) for name, label in LABELS.items()}
        self.serial = 0

    def masked(self, serial, text):
        blocks = range((len(text) + 19) // 20)
        number = serial.to_bytes(8, "big")
        mask = b"".join(mac(self.keys["masking"], number + i.to_bytes(4, "big")) for i in blocks)
        return bytes(a ^ b for a, b in zip(text, mask))

    def blob(self, serial, register17, text, counter=255, value=0):
        head = b"FLK1" + serial.to_bytes(8, "big") + bytes([counter]) + value.to_bytes(4, "big")
        head += register17 + len(text).to_bytes(2, "big")
        front = head + self.masked(serial, text)
        return front + mac(self.keys["sealing"], front)

    def opened(self, register17, blob):
        """What was sealed, or the number of the refusal."""
        n = int.from_bytes(blob[37:39], "big")
        if len(blob) < 59 or blob[:4] != b"FLK1" or n > LONGEST or len(blob) != 59 + n:
            return 1
        if blob[39 + n :] != mac(self.keys["sealing"], blob[: 39 + n]):
            return 1
        if blob[17:37] != register17:
            return 2
        if blob[12] != 255:
            return 3
        return self.masked(int.from_bytes(blob[4:12], "big"), blob[39 : 39 + n])


def launched(code, budget):
    """Register 17 while an image runs whose entry is 32."""
    image = struct.pack("<HH4sII", 32, 32 + len(code), b"FLKC", 1, budget) + bytes(16) + code
    return sha1(bytes(20) + sha1(image))


def changed(chance, blob):
    """The blob, or one that differs from it in a bit, a byte more or less, or its length."""
    way = chance.randrange(5)
    if way == 0 and blob:
        at = chance.randrange(len(blob))
        return blob[:at] + bytes([blob[at] ^ 1 << chance.randrange(8)]) + blob[at + 1 :]
    if way == 1:
        return blob[: chance.randrange(len(blob) + 1)]
    if way == 2:
        return blob + chance.randbytes(chance.randrange(1, 4))
    return blob


def session(answer):
    """The answer to a session of the PAL, by what its service gives: bytes, or a refusal's number."""
    if isinstance(answer, int):
        return f"ok done turns 12 dma 0 0 0 x:{struct.pack('<I', answer).hex()}"
    return f"ok done turns 10 dma 0 0 0 x:{answer.hex()}"


def unseal(answer):
    if isinstance(answer, int):
        return ["", "no blob", "no chain", "no counter"][answer]
    return f"ok x:{answer.hex()}"


def made_here(chance, device):
    """A blob for register 17 as it is after power-on, or for another value, with or without a counter."""
    text = chance.randbytes(chance.choice([0, 1, 19, 20, 21, chance.randrange(LONGEST + 2)]))
    register17 = chance.choice([POWER_ON, POWER_ON, POWER_ON, bytes(20)])
    counter = chance.choice([255, 255, 255, 0, 254])
    return device.blob(chance.randrange(2**64), register17, text, counter, chance.randrange(2**32))


def script(chance):
    """The lines of a script, and their answers."""
    seed = chance.randbytes(chance.choice([0, 1, 20, 63, 64, 65, chance.randrange(300)]))
    device = Device(seed)
    register17 = launched(CODE, 100)
    rows = [(f"seed x:{seed.hex()}", "ok")]
    for _ in range(6):
        blob = changed(chance, made_here(chance, device))
        rows.append((f"unseal x:{blob.hex()}", unseal(device.opened(POWER_ON, blob))))
    rows.append((f"image keeper pal 32 100 x:{CODE.hex()}", f"ok {32 + len(CODE)}"))
    for _ in range(6):
        text = chance.randbytes(chance.choice([0, 1, 20, chance.randrange(LONGEST + 1), LONGEST + 1]))
        answer = device.blob(device.serial, register17, text) if len(text) <= LONGEST else 1
        rows.append((f"session keeper x:03{text.hex()} rep:00*20", session(answer)))
        if isinstance(answer, int):
            continue
        device.serial += 1
        blob = changed(chance, answer)
        if len(blob) > 4095:
            continue
        rows.append((f"session keeper x:04{blob.hex()} rep:00*20", session(device.opened(register17, blob))))
        rows.append((f"unseal x:{answer.hex()}", "no chain"))
    return rows


def main():
    count = int(sys.argv[1]) if len(sys.argv) > 1 else 200
    chance = random.Random(int(sys.argv[2]) if len(sys.argv) > 2 else 1)
    compared = different = 0
    for _ in range(count):
        rows = script(chance)
        text = "".join(line + "\n" for line, _ in rows)
        ran = subprocess.run([PROGRAM, "run"], input=text, capture_output=True, text=True, check=False)
        answers = ran.stdout.splitlines()
        for i, (line, wanted) in enumerate(rows):
            compared += 1
            got = answers[i] if i < len(answers) else f"nothing, {ran.stderr.strip()}"
            if got != f"{i + 1} {wanted}":
                different += 1
                print(f"{line}\n  wanted {wanted}\n  got    {got}")
    print(f"{count} scripts, {compared} answers, {different} different")
    return 1 if different else 0


if __name__ == "__main__":
    sys.exit(main())
