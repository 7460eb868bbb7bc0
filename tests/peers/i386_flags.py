#!/usr/bin/env python3
"""Prints the rows of crates/asm_tests/src/vectors.rt, as this x86-64 processor answers them.

Each group of the first two tables is an instruction, and rows of registers and flags before it and what the processor
leaves. A flag that the i386 manuals leave undefined is printed as it was before the instruction, which is what the
profile does with it. The third table has the conditions that hold, by their numbers, for each state of the flags. The
rows of the last are registers at which `div` traps: they are run in a child process, which the trap has to end.
"""

import ctypes
import mmap
import os
import signal
import struct

CARRY, ZERO, SIGN, OVERFLOW = 0x001, 0x040, 0x080, 0x800
ALL = CARRY | ZERO | SIGN | OVERFLOW
EDGES = [0, 1, 0x7FFFFFFF, 0x80000000, 0xFFFFFFFF]
COUNTS = [0, 1, 31, 32, 33]
# About the edges of 31 and 32 bits.
PRODUCTS = [
    [0x8000, 0xFFFF, 5], [0x8000, 0x10000, 5], [0xFFFF8000, 0x10000, 5], [0x10000, 0x10000, 5], [46341, 46341, 5],
    [46340, 46341, 5],
]
# eax, ecx, edx: quotients up to the greatest that 32 bits hold, and such as pass it.
QUOTIENTS = [
    [7, 2, 0], [0, 1, 0], [0xFFFFFFFF, 1, 0], [0xFFFFFFFF, 0xFFFFFFFF, 0], [0xFFFFFFFF, 0x80000000, 0x7FFFFFFF],
    [0xFFFFFFFF, 0xFFFFFFFF, 0xFFFFFFFE], [0, 2, 1], [0xFFFFFFFF, 2, 1],
]
TRAPPING = [
    [0, 0, 0], [7, 0, 0], [0, 1, 1], [0, 0x80000000, 0x80000000], [0xFFFFFFFF, 0xFFFFFFFF, 0xFFFFFFFF],
]


def run(code, regs, flags):
    """The registers eax, ecx, edx and the flags after the code."""
    body = b"".join([
        b"\x49\x89\xf8",              # mov r8, rdi
        b"\x41\x8b\x00",              # mov eax, [r8]
        b"\x41\x8b\x48\x04",          # mov ecx, [r8 + 4]
        b"\x41\x8b\x50\x08",          # mov edx, [r8 + 8]
        b"\x41\xff\x70\x10\x9d",      # push qword [r8 + 16]; popfq
        code,
        b"\x9c\x41\x8f\x40\x10",      # pushfq; pop qword [r8 + 16]
        b"\x41\x89\x00",              # mov [r8], eax
        b"\x41\x89\x48\x04",          # mov [r8 + 4], ecx
        b"\x41\x89\x50\x08",          # mov [r8 + 8], edx
        b"\xc3",                      # ret
    ])
    page = mmap.mmap(-1, 4096, prot=mmap.PROT_READ | mmap.PROT_WRITE | mmap.PROT_EXEC)
    page.write(body)
    state = ctypes.create_string_buffer(struct.pack("<IIIIQ", *regs, 0, 0x202 | flags), 24)
    start = ctypes.addressof(ctypes.c_char.from_buffer(page))
    ctypes.CFUNCTYPE(None, ctypes.c_void_p)(start)(ctypes.addressof(state))
    eax, ecx, edx, _, after = struct.unpack("<IIIIQ", state.raw)
    return [eax, ecx, edx], after & ALL


def traps(code, regs):
    """A child that runs the code is ended by the divide trap."""
    child = os.fork()
    if child == 0:
        run(code, regs, 0)
        os._exit(0)
    _, status = os.waitpid(child, 0)
    return os.WIFSIGNALED(status) and os.WTERMSIG(status) == signal.SIGFPE


def taken(code, flags):
    """`y` or `n`: whether the condition holds (setcc al). The parity flag's conditions are left out."""
    if code in (10, 11):
        return "-"
    [eax, _, _], _ = run(bytes([0x0F, 0x90 + code, 0xC0]), [0, 0, 0], flags)
    return "y" if eax else "n"


def letters(flags):
    marks = [(CARRY, "C"), (ZERO, "Z"), (SIGN, "S"), (OVERFLOW, "O")]
    return "".join(letter if flags & bit else "." for bit, letter in marks)


def number(n):
    return str(n) if n < 10 else "0x%X" % n if n < 0x10000 else "0x%04X_%04X" % divmod(n, 0x10000)


def numbers(values):
    return "[" + ", ".join(map(number, values)) + "]"


def rows(name, code, operands, undefined=0, shown=None, wide=False):
    """The instruction, and a row for each of the operands, with the flags clear and set in turn."""
    print("    // %s" % name)
    print("    (&[%s], &[" % ", ".join("0x%02X" % b for b in shown or code))
    for index, (a, c, d) in enumerate(operands):
        flags = ALL if index % 2 else 0
        (eax, ecx, edx), left = run(code, [a, c, d], flags)
        left = (left & ~undefined) | (flags & undefined)
        assert ecx == c and (wide or edx == d)
        if wide:
            print('        (%s, *b"%s", %s, *b"%s"),' % (numbers([a, c, d]), letters(flags), numbers([eax, edx]), letters(left)))
        else:
            print('        (%s, %s, *b"%s", %s, *b"%s"),' % (number(a), number(c), letters(flags), number(eax), letters(left)))
    print("    ]),")


def pairs(step=1):
    return [[a, b, 5] for a in EDGES for b in EDGES][::step]


def two_operands():
    rows("add eax, ecx", b"\x01\xc8", pairs())
    rows("sub eax, ecx", b"\x29\xc8", pairs())
    rows("cmp eax, ecx", b"\x39\xc8", pairs(2))
    rows("or eax, ecx", b"\x09\xc8", pairs(5))
    rows("and eax, ecx", b"\x21\xc8", pairs(4))
    rows("xor eax, ecx", b"\x31\xc8", pairs(6))
    rows("test eax, ecx", b"\x85\xc8", pairs(4))
    rows("imul eax, ecx", b"\x0f\xaf\xc1", pairs(2) + PRODUCTS, ZERO | SIGN)


def one_operand():
    # One byte each in the profile; the processor has other instructions there in 64-bit mode, and runs ff c0 and ff c8.
    both = [[a, 7, 5] for a in EDGES for _ in range(2)]
    rows("inc eax", b"\xff\xc0", both, shown=b"\x40")
    rows("dec eax", b"\xff\xc8", both, shown=b"\x48")
    rows("neg eax", b"\xf7\xd8", [[a, 7, 5] for a in EDGES])
    rows("not eax", b"\xf7\xd0", [[a, 7, 5] for a in EDGES])


def shifts():
    for name, modrm in (("shl", 0xE0), ("shr", 0xE8), ("sar", 0xF8)):
        for count in COUNTS:
            code = bytes([0xC1, modrm, count])
            rows("%s eax, %d" % (name, count), code, [[a, 7, 5] for a in EDGES], 0 if count % 32 == 1 else OVERFLOW)


def wide_results():
    rows("mul ecx", b"\xf7\xe1", pairs(3) + PRODUCTS, ZERO | SIGN, wide=True)
    rows("div ecx", b"\xf7\xf1", QUOTIENTS, ALL, wide=True)


def conditions():
    for flags in range(16):
        state = sum(bit for place, bit in enumerate((CARRY, ZERO, SIGN, OVERFLOW)) if flags >> place & 1)
        print('    (b"%s", b"%s"),' % (letters(state), "".join(taken(code, state) for code in range(16))))


def trapping():
    for regs in TRAPPING:
        assert traps(b"\xf7\xf1", regs)
        print("    %s," % numbers(regs))


def main():
    two_operands()
    one_operand()
    shifts()
    for table in (wide_results, conditions, trapping):
        print()
        table()


if __name__ == "__main__":
    main()
