"""What tests/peers/tpm.py and random_words.py have in common: PALs in bytes, and scripts that are run and compared.

A PAL is a list of instructions (docs/I386.md), each the bytes of one turn. Its image has entry 32 (docs/IMAGES.md).
"""
import os
import struct
import subprocess

PROGRAM = os.environ.get("FLICKER", "./flicker")
EAX, ECX, EDX, EBX, ESP, EBP, ESI, EDI = range(8)
INPUTS, OUTPUTS = 57344, 61440


def load(register, number):
    """mov register, number"""
    return bytes([0xB8 + register]) + struct.pack("<I", number)


GATE = bytes([0xCD, 0x80])
END = [bytes([0x31, 0xC0]), GATE]


def image(code, budget):
    """The image of a PAL's code."""
    return struct.pack("<HH4sHHI16s", 32, 32 + len(code), b"FLKC", 1, 0, budget, b"") + code


def digits(text):
    """Bytes as a script spells them."""
    return "x:" + text.hex()


def ended(how, turns, outputs):
    """The answer to the session of a PAL."""
    return f"ok {how} turns {turns} dma 0 0 0 {digits(outputs)}"


class Comparison:
    """How many answers were compared, and how many of them differed."""

    def __init__(self, name):
        self.name = name
        self.scripts = self.compared = self.different = 0

    def script(self, rows):
        """Runs the lines of a script, and compares what is answered with what is wanted. Prints where they differ."""
        text = "".join(line + "\n" for line, _ in rows)
        ran = subprocess.run([PROGRAM, "run"], input=text, capture_output=True, text=True, check=False)
        answers = ran.stdout.splitlines()
        self.scripts += 1
        for i, (line, wanted) in enumerate(rows):
            got = answers[i] if i < len(answers) else f"nothing, {ran.stderr.strip()}"
            self.answer(line, f"{i + 1} {wanted}", got)

    def answer(self, asked, wanted, got):
        self.compared += 1
        if got != wanted:
            self.different += 1
            print(f"{asked}\n  wanted {wanted}\n  got    {got}")

    def __str__(self):
        return f"{self.name}: {self.scripts} scripts, {self.compared} answers, {self.different} different"
