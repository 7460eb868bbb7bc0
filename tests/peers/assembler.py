#!/usr/bin/env python3
"""Compares `flicker asm` with GNU as and `flicker dis` with objdump (binutils), statement by statement.

    tests/peers/assembler.py [COMMAND ..]      COMMAND is ./flicker at the top of the repository, if none is given

Each row is a statement for `flicker asm` and one for GNU as (Intel syntax, --32) that asks for the spelling that the
profile writes. Their bytes have to be the same. Where GNU as writes another spelling when it is asked for none, the row
names the form, and docs/ASSEMBLER.md lists it: a row whose form is not named has to be spelled the same unasked, and a
row whose form is named differently. Then `flicker dis` lists the code of the rows, and a few spellings that the profile
reads and never writes, and the listing has to be objdump's, put into the listing's words.

The status is 0 where all agree, or where `as`, `objcopy` or `objdump` is missing; else 1, with the rows that differ.
"""

import os
import re
import shutil
import subprocess
import sys
import tempfile

TOP = os.path.dirname(os.path.dirname(os.path.dirname(os.path.abspath(__file__))))
TOOLS = ["as", "objcopy", "objdump"]

REGS = "eax ecx edx ebx esp ebp esi edi".split()
LOWS = "al cl dl bl".split()
ALU = "add or and sub xor cmp".split()
SHIFTS = "shl shr sar".split()
UNARY = "not neg mul div".split()
CONDITIONS = "o no b ae e ne be a s ns l ge le g".split()
SYNONYMS = {"jz": "je", "jnz": "jne", "jc": "jb", "jnc": "jae"}
# About the edges of a byte that is sign-extended, of 8 bits and of 32 bits.
NUMBERS = [
    0, 1, 127, 128, 255, 256, 2**31 - 1, 2**31, 2**32 - 129, 2**32 - 128, 2**32 - 1, -1, -128, -129, -(2**31),
]
DISPLACEMENTS = [0, 1, 127, 128, 2**31 - 1, -1, -128, -129, -(2**31)]
ADDRESSES = [0, 127, 2**31, 2**32 - 1]
COUNTS = [0, 1, 2, 31, 32, 255]
# Offsets of the segment, and how far they lie behind the code's begin, which is offset 32.
TARGETS = [0, 32, 2**31 - 1, 2**31, 2**32 - 1]
START = 32

# The forms that GNU as spells in another way by itself, with the opcode that it takes and the profile's.
FORMS = {
    "moffs": "mov between eax or al and [N]: A0 to A3, here 8B, 8A, 89, 88 /r",
    "accumulator": "op eax, n where n is no sign-extended byte: 05, 0D, 25, 2D, 35, 3D id, here 81 /op id",
    "push byte": "push n where n is a sign-extended byte: 6A ib, here 68 id",
    "shift by one": "shl, shr, sar by 1: D1 /n, here C1 /n ib",
    "int3": "int 3: CC, here CD ib",
    "short jump": "jmp, jcc to a near target: EB, 70 to 7F ib, here E9, 0F 80 to 8F id",
}


class Row:
    """A statement, the one that asks GNU as for its chosen spelling, and the form that as spells otherwise unasked."""

    def __init__(self, ours, asked, form=None, unasked=None):
        self.ours, self.asked, self.form = ours, asked, form
        self.unasked = unasked or asked


# ---- statements

def number(n):
    """A number in the spellings that there are, each in its turn."""
    return "-0x%X" % -n if n < 0 and n % 2 else "0x%x" % n if n % 2 else str(n)


def signed_byte(n):
    return (n + 128) % 2**32 < 256


def place(base, disp):
    """A place in memory for the assembler and for GNU as."""
    if base is None:
        return "[%d]" % disp, "ds:%d" % disp
    shown = "%+d" % disp if disp else ""
    return "[%s%s]" % (base, shown), "[%s%s]" % (base, shown)


def places():
    """Every base and every displacement, and addresses without a base."""
    for base in REGS:
        for disp in DISPLACEMENTS:
            yield place(base, disp)
    for address in ADDRESSES:
        yield place(None, address)


def few_places():
    return [place("ebp", 0), place("esp", -128), place("edi", 128), place(None, 2**32 - 1)]


def named(n):
    """The name that GNU as knows a number by, from the end of the text on."""
    return "number.%d" % (n % 2**32)


def later(mnemonic, name, *operands):
    """A statement whose number GNU as meets only behind it, so that it leaves as many bytes as any number needs."""
    return ".att_syntax\n%s $%s\n.intel_syntax noprefix" % (mnemonic, ", ".join([name, *operands]))


def moves():
    for r in REGS:
        for n in NUMBERS:
            yield Row("mov %s, %s" % (r, number(n)), "mov %s, %d" % (r, n))
        for s in REGS:
            yield Row("mov %s, %s" % (r, s), "mov %s, %s" % (r, s))
        for low in LOWS:
            yield Row("movzx %s, %s" % (r, low), "movzx %s, %s" % (r, low))
    for ours, theirs in places():
        yield Row("mov edx, %s" % ours, "mov edx, %s" % theirs)
    for ours, theirs in few_places():
        for n in NUMBERS:
            yield Row("mov dword %s, %s" % (ours, number(n)), "mov dword ptr %s, %d" % (theirs, n))
        for r in REGS:
            yield Row("movzx %s, byte %s" % (r, ours), "movzx %s, byte ptr %s" % (r, theirs))
            yield Row("lea %s, %s" % (r, ours), "lea %s, %s" % (r, theirs))
            yield from moved(r, 0x89, 0x8B, REGS, ours, theirs)
        for low in LOWS:
            yield from moved(low, 0x88, 0x8A, LOWS, ours, theirs)


def moved(r, to, out, names, ours, theirs):
    """mov between a register and a place, where GNU as has spellings of its own for eax and al without a base."""
    for spelled, opcode in (("mov %s, %s", to), ("mov %s, %s", out)):
        pair = lambda at: (at, r) if opcode == to else (r, at)
        own, other = spelled % pair(ours), spelled % pair(theirs)
        if theirs.startswith("ds:") and r in ("eax", "al"):
            raw = ".byte 0x%02x, 0x%02x\n.long %s" % (opcode, 8 * names.index(r) + 5, theirs[3:])
            yield Row(own, raw, "moffs", other)
        else:
            yield Row(own, other)


def arithmetic():
    for op in ALU:
        for r in REGS:
            yield Row("%s %s, ebx" % (op, r), "%s %s, ebx" % (op, r))
            for n in NUMBERS:
                yield with_number(op, ALU.index(op), r, n)
        for ours, theirs in few_places():
            yield Row("%s %s, esi" % (op, ours), "%s %s, esi" % (op, theirs))
            yield Row("%s esi, %s" % (op, ours), "%s esi, %s" % (op, theirs))
            for n in NUMBERS:
                yield Row("%s dword %s, %s" % (op, ours, number(n)), "%s dword ptr %s, %d" % (op, theirs, n))
    for r in REGS:
        yield Row("test %s, edi" % r, "test %s, edi" % r)
        yield Row("imul edi, %s" % r, "imul edi, %s" % r)
        for op in ("inc", "dec", "push", "pop"):
            yield Row("%s %s" % (op, r), "%s %s" % (op, r))
        for op in UNARY:
            yield Row("%s %s" % (op, r), "%s %s" % (op, r))
    for ours, theirs in few_places():
        yield Row("test %s, ecx" % ours, "test %s, ecx" % theirs)
        yield Row("imul ecx, %s" % ours, "imul ecx, %s" % theirs)
        for op in UNARY:
            yield Row("%s dword %s" % (op, ours), "%s dword ptr %s" % (op, theirs))


def with_number(op, place_in_table, r, n):
    ours, theirs = "%s %s, %s" % (op, r, number(n)), "%s %s, %d" % (op, r, n)
    if r == "eax" and not signed_byte(n):
        code = (0, 1, 4, 5, 6, 7)[place_in_table]
        return Row(ours, ".byte 0x81, 0x%02x\n.long %d" % (0xC0 + 8 * code, n), "accumulator", theirs)
    return Row(ours, theirs)


def shifts():
    at_and_t = {"[ebp]": "(%ebp)", "[esp-128]": "-128(%esp)", "[edi+128]": "128(%edi)", "[4294967295]": "-1"}
    for op in SHIFTS:
        for count in COUNTS:
            operands = [(r, r, "%" + r) for r in REGS]
            operands += [("dword " + ours, "dword ptr " + theirs, at_and_t[ours]) for ours, theirs in few_places()]
            for ours, theirs, att in operands:
                plain = "%s %s, %d" % (op, theirs, count)
                if count == 1:
                    yield Row("%s %s, 1" % (op, ours), later(op + "l", named(1), att), "shift by one", plain)
                else:
                    yield Row("%s %s, %s" % (op, ours, number(count)), plain)


def control():
    for n in NUMBERS:
        if signed_byte(n):
            yield Row("push %s" % number(n), later("push", named(n)), "push byte", "push %d" % n)
        else:
            yield Row("push %s" % number(n), "push %d" % n)
    for n in (0, 3, 0x80, 255):
        ours, plain = "int %s" % number(n), "int %d" % n
        yield Row(ours, later("int", named(3)), "int3", plain) if n == 3 else Row(ours, plain)
    yield Row("ret", "ret")
    yield Row("nop", "nop")
    jumps = ["jmp"] + ["j" + c for c in CONDITIONS] + list(SYNONYMS)
    for jump in jumps:
        for target in TARGETS:
            theirs = "%s begin%+d" % (jump, (target - START + 2**31) % 2**32 - 2**31)
            yield Row("%s %s" % (jump, number(target)), "{disp32} " + theirs)
    for target in TARGETS:
        yield Row("call %s" % number(target), "call begin%+d" % ((target - START + 2**31) % 2**32 - 2**31))


def labelled():
    """Statements with labels; the last of each jump's lies near enough for GNU as to take its short spelling."""
    for index, jump in enumerate(["jmp"] + ["j" + c for c in CONDITIONS] + list(SYNONYMS)):
        name = "Near_%d" % index
        yield Row("%s: %s %s" % (name, jump, name), "%s: {disp32} %s %s" % (name, jump, name), "short jump", "%s: %s %s" % (name, jump, name))
    yield Row("Back: call Ahead", "Back: call Ahead")
    yield Row("Ahead: call Back", "Ahead: call Back")
    # GNU as has no origin, so an offset in the segment is the distance from the code's begin and that begin's offset.
    yield Row("mov ebx, Ahead", "mov ebx, offset Ahead - begin + %d" % START)
    yield Row("push Back", later("push", "offset.Back"))


def data():
    yield Row(".byte 0, -128, 255, 0xfF", ".byte 0, -128, 255, 0xff")
    for n in NUMBERS:
        yield Row(".long %s" % number(n), ".long %d" % n)
    yield Row(".zero 3", ".zero 3")


def instructions():
    for rows in (moves, arithmetic, shifts, control, labelled):
        yield from rows()


# Spellings that the profile reads and never writes.
READ = [
    ".byte 0xc7, 0xc6, 7, 0, 0, 0", "{load} mov eax, ebx", *["{load} %s edx, esi" % op for op in ALU],
    ".byte 0x81, 0xec, 0xfc, 0xff, 0xff, 0xff", "jmp begin", *["j%s .+0x81" % c for c in CONDITIONS],
    "{disp8} mov eax, [ecx]", "{disp32} mov eax, [esp+1]", "{disp32} mov eax, [ebp]", "{disp8} lea esi, [esp]",
]


# ---- the peers

def assembled(statements):
    """The bytes of each statement, as GNU as spells it, and all of them."""
    lines = [".intel_syntax noprefix", "begin:"]
    for index, statement in enumerate(statements):
        lines += ["row.%d:" % index, statement]
    lines.append("row.%d:" % len(statements))
    lines += ["%s = %d" % (named(n), n % 2**32) for n in [3, *NUMBERS]]
    if any(s.startswith("Back:") for s in statements):
        lines.append("offset.Back = Back - begin + %d" % START)
    with tempfile.TemporaryDirectory() as folder:
        made, flat = os.path.join(folder, "a.o"), os.path.join(folder, "a.bin")
        subprocess.run(["as", "--32", "--no-warn", "-o", made, "-"], input="\n".join(lines + [""]).encode(), check=True)
        subprocess.run(["objcopy", "-O", "binary", "-j", ".text", made, flat], check=True)
        table = subprocess.run(["objdump", "-t", made], check=True, capture_output=True, text=True).stdout
        with open(flat, "rb") as f:
            code = f.read()
    starts = {int(m[2]): int(m[1], 16) for m in re.finditer(r"^([0-9a-f]+) .*\brow\.(\d+)$", table, re.M)}
    return [code[starts[i]:starts[i + 1]] for i in range(len(statements))], code


def read(code):
    """What objdump reads, in the listing's words: a line for each instruction."""
    with tempfile.NamedTemporaryFile() as flat:
        flat.write(code)
        flat.flush()
        words = ["objdump", "-D", "-z", "-b", "binary", "-m", "i386", "-M", "intel", "--adjust-vma=%d" % START]
        text = subprocess.run([*words, "--no-show-raw-insn", flat.name], check=True, capture_output=True, text=True).stdout
    return [listed(m[1].strip()) for m in re.finditer(r"^ *[0-9a-f]+:\t(.*)$", text, re.M)]


def listed(line):
    """An instruction of objdump's, in the listing's words."""
    word, _, operands = line.partition(" ")
    operands = [o.strip() for o in operands.split(",")] if operands.strip() else []
    if word == "call" or word.startswith("j"):
        return "%s 0x%x" % (word, int(operands[0], 16) % 2**32)
    shown = [operand(o) for o in operands]
    if word == "movzx" and shown[1].startswith("["):
        shown[1] = "byte " + shown[1]
    elif shown and shown[0].startswith("[") and not (len(shown) == 2 and shown[1] in REGS + LOWS):
        shown[0] = "dword " + shown[0]
    return word + " " * bool(shown) + ", ".join(shown)


def operand(text):
    text = re.sub(r"^(DWORD|BYTE) PTR ", "", text)
    if text.startswith("ds:"):
        return "[%d]" % (int(text[3:], 16) % 2**32)
    text = re.sub(r"0x[0-9a-f]+", lambda m: str(int(m[0], 16) % 2**32), text)
    return re.sub(r"\+0\]$", "]", text)


# ---- the comparison

def flicker(command, word, text):
    ran = subprocess.run([*command, word], input=text.encode(), capture_output=True)
    if ran.returncode != 0:
        sys.exit("%s %s: status %d\n%s" % (" ".join(command), word, ran.returncode, ran.stderr.decode(errors="replace")))
    return ran.stdout.decode()


def different_bytes(rows, code):
    """The rows whose bytes differ, where each row's place follows from GNU as's spellings of the rows before."""
    asked, _ = assembled([row.asked for row in rows])
    at = 0
    for row, wanted in zip(rows, asked):
        got = code[at:at + len(wanted)]
        if got != wanted:
            yield "%s: as %s, flicker asm %s" % (row.ours, wanted.hex(" "), got.hex(" "))
        at += len(wanted)
    if at != len(code):
        yield "the code: as %d bytes, flicker asm %d" % (at, len(code))


def different_forms(rows):
    """The rows at which GNU as takes another spelling unasked and no form says so, or the other way round."""
    asked, _ = assembled([row.asked for row in rows])
    unasked, _ = assembled([row.unasked for row in rows])
    for row, chosen, other in zip(rows, asked, unasked):
        # A number of a call or of an offset hangs on what stands before it: the lengths and the opcodes tell.
        same = len(chosen) == len(other) and chosen[:1] == other[:1]
        if same == (row.form is not None):
            yield "%s: as by itself %s, asked %s, form %s" % (row.ours, other.hex(" "), chosen.hex(" "), row.form)


def different_readings(listing, code):
    wanted, got = read(code), listing.splitlines()
    if len(wanted) != len(got):
        yield "the listing: objdump %d lines, flicker dis %d" % (len(wanted), len(got))
    for theirs, ours in zip(wanted, got):
        if theirs != ours:
            yield "objdump `%s`, flicker dis `%s`" % (theirs, ours)


def main():
    missing = [tool for tool in TOOLS if shutil.which(tool) is None]
    if missing:
        print("skipped: %s is missing" % ", ".join(missing))
        return 0
    command = sys.argv[1:] or [os.path.join(TOP, "flicker")]
    rows = [*instructions(), *data()]
    code = bytes.fromhex(flicker(command, "asm", "\n".join(row.ours for row in rows) + "\n"))
    faults = [*different_bytes(rows, code), *different_forms(rows)]
    _, readable = assembled([row.asked for row in instructions()])
    _, others = assembled(READ)
    for part in (readable, others):
        faults += different_readings(flicker(command, "dis", part.hex() + "\n"), part)
    for fault in faults:
        print(fault)
    for form, said in FORMS.items():
        print("%3d rows: %s" % (sum(row.form == form for row in rows), said))
    print("%d statements, %d differences" % (len(rows), len(faults)))
    return 1 if faults else 0


if __name__ == "__main__":
    sys.exit(main())
