#!/usr/bin/env python3
"""Compares registers and counters with those of a software TPM 1.2 (tests/peers/swtpm.py).

    tests/peers/tpm.py [SCRIPTS [SEED [PART..]]]

The parts are `registers`, `counters` and `points`; without any all three are done. Registers and counters make SCRIPTS
scripts each (50) from SEED (1). What the program must answer is what a TPM answers that is asked the same. Prints each
answer that differs and how many were compared; the status is 1 where one differs. Run it by hand at the top of the
repository. It runs ./flicker; FLICKER names another program. It needs Debian's package swtpm.

Registers: a power-on, extends of all registers, launches, the extends of sessions and of their closes, and what the
host and launched code read. Where a TPM has other rules (crates/tpm_state/README.md) they are gone round: its commands
come from locality 2, which may extend every register; and 18 to 22 are those of a second TPM that nothing is launched
on, since a launch resets them there, and here 17 alone.

Counters: launched code creates, increments and reads them, and the host reads. A counter's secret is there what
register 17 shows here when the code calls its service. A TPM increments one counter from one start to the next, so it
is started anew before a session that increments another; and it has 8 counters, so no script creates more.

Points: what docs/COUNTERS.md and crates/tpm_state/README.md say of TPM 1.2, each by what this TPM does. The program is
not run.
"""
import random
import struct
import sys

from scripts import EAX, EBX, ECX, EDI, END, GATE, INPUTS, OUTPUTS, Comparison, digits, ended, image, load
from swtpm import AUTHFAIL, BAD_COUNTER, BADINDEX, Refused, Tpm, sha1
from tpm_points import POINTS

ENDS = {"done": 0, "fault 1": 1, "fault 2": 2, "budget": 4}
NO_COUNTER, NOT_OWNER = 3, 4
CREATE, READ, INCREMENT = 5, 6, 7
# Extends register 17 by the inputs from 5 on, and calls the service of byte 0 for the counter of bytes 1 to 4. Its
# outputs are eax, ebx and ecx.
SERVICES = bytes.fromhex("8d5e05 83e905 b801000000 cd80 0fb606 8b5e01 cd80 8907 895f04 894f08 bb0c000000 31c0 cd80")
# Creates a counter, increments it, and puts out its value.
BEGINNING = bytes.fromhex("b805000000 cd80 b807000000 cd80 890f bb04000000 31c0 cd80")


class Registers:
    """The registers of flicker, by two TPMs."""

    def __init__(self):
        self.launched, self.never_launched = Tpm(), Tpm()

    def close(self):
        self.launched.close()
        self.never_launched.close()

    def power_on(self):
        for tpm in (self.launched, self.never_launched):
            tpm.power_on()
            tpm.locality(2)

    def launch(self, measured):
        self.launched.launch(measured)
        self.launched.locality(2)

    def extend(self, register, text):
        """Whether there is such a register."""
        try:
            for tpm in (self.launched, self.never_launched):
                tpm.extend(register, sha1(text))
            return True
        except Refused as refused:
            if refused.number != BADINDEX:
                raise
            return False

    def value(self, register):
        """What the register shows, or None where there is none."""
        try:
            return (self.never_launched if 18 <= register <= 22 else self.launched).register(register)
        except Refused as refused:
            if refused.number != BADINDEX:
                raise
            return None


def close(extend, inputs, outputs, end, nonce):
    """The extends that close a session."""
    for text in (b"in" + inputs, b"out" + outputs, b"end" + bytes([end]) + nonce, b"close"):
        extend(17, text)


def any_register(chance):
    return chance.choice([17, 17, chance.randrange(24), chance.randrange(24), chance.randrange(16, 28), 2**32 - 1])


def steps_and_code(chance, inputs, end):
    """What launched code does, and its instructions: extends by some of its inputs, and reads of registers."""
    steps, code = [], []
    for i in range(chance.randrange(8)):
        if chance.random() < 0.5:
            start, stop = sorted(chance.randrange(len(inputs) + 1) for _ in range(2))
            steps.append(inputs[start:stop])
            code += [load(EBX, INPUTS + start), load(ECX, stop - start), load(EAX, 1), GATE]
        else:
            steps.append(any_register(chance))
            code += [load(EBX, steps[-1]), load(EDI, OUTPUTS + 20 * i), load(EAX, 2), GATE]
    length = 20 * len(steps) if end != "fault 2" else chance.randrange(4097, 2**32)
    return steps, code + [load(EBX, length)] + (END if end != "fault 1" else [END[0], b"\xcd\x81"])


def session_rows(chance, registers):
    """A session, by what the TPMs show at each of its steps."""
    inputs, nonce = chance.randbytes(chance.choice([0, 1, 64, 4096])), chance.randbytes(20)
    end = chance.choice(["done"] * 5 + list(ENDS))
    steps, code = steps_and_code(chance, inputs, end)
    turns = chance.randrange(1, len(code)) if end == "budget" else len(code)
    budget = turns if end == "budget" else turns + chance.randrange(100)
    rest = chance.choice([0, 0, chance.randrange(49120 - sum(map(len, code)))])
    registers.launch(image(b"".join(code) + b"\x90" * rest, budget))
    outputs = b""
    for step in steps[: turns // 4]:
        value = bytes(20) if isinstance(step, bytes) else registers.value(step) or bytes(20)
        outputs += value
        if isinstance(step, bytes):
            registers.extend(17, b"pal" + step)
    outputs = outputs if end == "done" else b""
    close(registers.extend, inputs, outputs, ENDS[end], nonce)
    made = f"image measured pal 32 {budget} {digits(b''.join(code))}+rep:90*{rest}"
    asked = f"session measured {digits(inputs)} {digits(nonce)}"
    return [(made, f"ok {32 + sum(map(len, code)) + rest}"), (asked, ended(end, turns, outputs))]


def register_row(register, registers):
    value = registers.value(register)
    return f"read {register}", "no register" if value is None else f"ok {digits(value)}"


def registers_script(chance, registers):
    """The lines of a script about registers, and their answers."""
    registers.power_on()
    rows = []
    for _ in range(60):
        kind = chance.randrange(10)
        if kind < 5:
            register, text = any_register(chance), chance.randbytes(chance.choice([0, 1, 20, chance.randrange(3000)]))
            found = registers.extend(register, b"host" + text)
            rows.append((f"extend {register} {digits(text)}", "ok" if found else "no register"))
        elif kind < 8:
            rows.append(register_row(any_register(chance), registers))
        elif kind < 9:
            rows += session_rows(chance, registers)
        else:
            rows.append(("session x:00 x: rep:00*20", "no image 1"))
    return rows + [register_row(register, registers) for register in range(25)]


class Counters:
    """The counters of flicker, by those of a TPM that has an owner: the id n is the n-th handle."""

    MOST = 8

    def __init__(self, owned):
        self.tpm = Tpm(owned)
        self.handles = []
        self.active = None
        self.strangers = 0

    def extend(self, register, text):
        self.tpm.extend(register, sha1(text))

    def launch(self, measured, increments=()):
        """A launch of code that increments these counters, after a new start of the TPM where it would refuse them."""
        if any(self.active not in (None, counter) for counter in increments) or self.strangers > 2:
            self.tpm.power_on()
            self.active = None
            self.strangers = 0
        self.tpm.launch(measured)
        self.tpm.locality(2)

    def handle(self, counter):
        """The handle of an id, and one that no counter has for an id that is not in use."""
        if counter < len(self.handles):
            return self.handles[counter]
        return 2**32 - 1 if counter in self.handles else counter

    def create(self):
        """The new id, whose handle no counter had."""
        handle, _ = self.tpm.create_counter(self.tpm.register(17))
        if handle in self.handles:
            raise ValueError(f"two counters have the handle {handle}")
        self.handles.append(handle)
        return len(self.handles) - 1

    def increment(self, counter):
        """The refusal's number and None, or 0 and the new value."""
        try:
            value = self.tpm.increment_counter(self.handle(counter), self.tpm.register(17))
            self.active = counter
            return 0, value
        except Refused as refused:
            self.strangers += refused.number == AUTHFAIL
            return {BAD_COUNTER: NO_COUNTER, AUTHFAIL: NOT_OWNER}[refused.number], None

    def read(self, counter):
        try:
            return 0, self.tpm.read_counter(self.handle(counter))
        except Refused as refused:
            return {BAD_COUNTER: NO_COUNTER}[refused.number], None


def service_row(chance, counters, service, counter, creator):
    """A session that calls a service. Code with another budget is another image."""
    budget, text = creator
    known = service == INCREMENT and counter < len(counters.handles)
    counters.launch(image(SERVICES, budget), [counter] if known else [])
    counters.extend(17, b"pal" + text)
    eax, ebx, ecx = 0, counter, len(text)
    if service == CREATE:
        ebx = counters.create()
    else:
        eax, value = counters.increment(counter) if service == INCREMENT else counters.read(counter)
        ecx = ecx if value is None else value
    inputs, outputs = struct.pack("<BI", service, counter) + text, struct.pack("<3I", eax, ebx, ecx)
    nonce = chance.randbytes(20)
    close(counters.extend, inputs, outputs, 0, nonce)
    return f"session services{budget} {digits(inputs)} {digits(nonce)}", ended("done", 13, outputs)


def beginning_row(chance, counters):
    """A session that creates a counter and increments it."""
    counters.launch(image(BEGINNING, 100), [len(counters.handles)])
    _, value = counters.increment(counters.create())
    outputs, nonce = struct.pack("<I", value), chance.randbytes(20)
    close(counters.extend, b"", outputs, 0, nonce)
    return f"session beginning x: {digits(nonce)}", ended("done", 8, outputs)


def any_counter(chance):
    """The id of a counter, which may not be in use."""
    low = chance.randrange(9)
    return chance.choice([low, low, low, 15, 16, 255, 256 + low, 2**16 + low, 2**32 - 1])


def counter_row(counters, counter):
    refusal, value = counters.read(counter)
    return f"counter {counter}", "no counter" if refusal else f"ok {value}"


def host_row(chance, counters):
    """A line that reads a counter, or register 17."""
    if chance.random() < 0.3:
        return "read 17", f"ok {digits(counters.tpm.register(17))}"
    return counter_row(counters, any_counter(chance))


def counters_script(chance, owned):
    """The lines of a script about counters, and their answers."""
    counters = Counters(owned)
    codes = [(budget, text) for budget in (100, 101) for text in (b"", chance.randbytes(30))]
    creators = []
    rows = [
        (f"image services100 pal 32 100 {digits(SERVICES)}", f"ok {32 + len(SERVICES)}"),
        (f"image services101 pal 32 101 {digits(SERVICES)}", f"ok {32 + len(SERVICES)}"),
        (f"image beginning pal 32 100 {digits(BEGINNING)}", f"ok {32 + len(BEGINNING)}"),
    ]
    for _ in range(40):
        kind, full = chance.randrange(20), len(counters.handles) == counters.MOST
        if kind < 4 and not full:
            creators.append(chance.choice(codes))
            rows.append(service_row(chance, counters, CREATE, chance.randrange(2**32), creators[-1]))
        elif kind < 5 and not full:
            creators.append(None)
            rows.append(beginning_row(chance, counters))
        elif kind < 14:
            counter = chance.choice([counters.active or 0] * 6 + [any_counter(chance)] * 4)
            creator = creators[counter] if counter < len(creators) and chance.random() < 0.8 else None
            service = INCREMENT if kind < 12 else READ
            rows.append(service_row(chance, counters, service, counter, creator or chance.choice(codes)))
        else:
            rows.append(host_row(chance, counters))
    rows += [counter_row(counters, counter) for counter in range(9)]
    counters.tpm.close()
    return rows


def points_compared(owned):
    """How many points there are, and how many do not hold."""
    different = 0
    for point in POINTS:
        with Tpm(owned) as tpm:
            if not point(tpm):
                different += 1
                print(f"not so: {point.__doc__}")
    print(f"points: {len(POINTS)}, {different} different")
    return different


def scripts_compared(name, count, script):
    """How many answers differ in scripts of one part."""
    comparison = Comparison(name)
    for _ in range(count):
        comparison.script(script())
    print(comparison)
    return comparison.different


def main():
    count = int(sys.argv[1]) if len(sys.argv) > 1 else 50
    chance = random.Random(int(sys.argv[2]) if len(sys.argv) > 2 else 1)
    parts = sys.argv[3:] or ["registers", "counters", "points"]
    different = 0
    if "registers" in parts:
        registers = Registers()
        different += scripts_compared("registers", count, lambda: registers_script(chance, registers))
        registers.close()
    with Tpm() as owned:
        owned.enable()
        owned.take_ownership()
        if "counters" in parts:
            different += scripts_compared("counters", count, lambda: counters_script(chance, owned))
        if "points" in parts:
            different += points_compared(owned)
    return 1 if different else 0


if __name__ == "__main__":
    sys.exit(main())
