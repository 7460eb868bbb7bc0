#!/usr/bin/env python3
"""Prints the rows of crates/asm_tests/src/spellings.rt, as GNU as spells the statements (binutils).

The first list has the spelling that the profile writes, the second the others that it reads. Where GNU as writes another
spelling by itself, the statement asks for the one that is meant ({load}, {disp32}, a .byte for an immediate).
"""

import subprocess
import tempfile

REGS = "eax ecx edx ebx esp ebp esi edi".split()


def reg(name):
    return "Reg::" + name.capitalize()


def number(n):
    return "0x%04X_%04X" % divmod(n % 2**32, 2**16) if n < 0 else "0x%X" % n if n > 9 else str(n)


def mem(base, disp=0):
    if base is None:
        return "Mem { base: None, disp: %s }" % number(disp)
    return "at!(%s, %s)" % (base.capitalize(), number(disp))


def rm(operand):
    return "Rm::Reg(%s)" % reg(operand) if isinstance(operand, str) else "Rm::Mem(%s)" % mem(*operand)


def place(base, disp=0):
    if base is None:
        return "ds:%d" % disp
    return "[%s%+d]" % (base, disp) if disp else "[%s]" % base


def chosen():
    for r in REGS:
        yield "Load(%s, 0x1234_5678)" % reg(r), "mov %s, 0x12345678" % r
    yield "Put(%s, 4)" % mem("edi"), "mov dword ptr [edi], 4"
    yield "MovTo(%s, %s)" % (rm("eax"), reg("ebx")), "mov eax, ebx"
    for r in REGS:
        yield "MovTo(%s, %s)" % (rm((r, 0)), reg("ecx")), "mov %s, ecx" % place(r)
    for base in ("eax", "ebp", "esp"):
        for disp in (-129, -128, -1, 127, 128):
            yield "MovFrom(%s, %s)" % (reg("edx"), mem(base, disp)), "mov edx, %s" % place(base, disp)
    yield "MovFrom(%s, %s)" % (reg("ecx"), mem(None, 0x1234)), "mov ecx, ds:0x1234"
    for r, low in zip(REGS[:4], "al cl dl bl".split()):
        byte = "ByteReg::" + low.capitalize()
        yield "ByteTo(%s, %s)" % (mem("esi"), byte), "mov byte ptr [esi], %s" % low
        yield "ByteFrom(%s, %s)" % (byte, mem("esi")), "mov %s, byte ptr [esi]" % low
        yield "WidenReg(%s, %s)" % (reg("edi"), byte), "movzx edi, %s" % low
    yield "Widen(%s, %s)" % (reg("ebp"), mem("ebx", 8)), "movzx ebp, byte ptr [ebx+8]"
    yield "Lea(%s, %s)" % (reg("ebx"), mem("esi", 72)), "lea ebx, [esi+72]"
    for op in "add or and sub xor cmp".split():
        shown = "AluOp::" + op.capitalize()
        yield "Alu(%s, %s, %s)" % (shown, rm("edx"), reg("esi")), "%s edx, esi" % op
        yield "Alu(%s, %s, %s)" % (shown, rm(("esp", 4)), reg("ebx")), "%s [esp+4], ebx" % op
        yield "AluFrom(%s, %s, %s)" % (shown, reg("ecx"), mem("ebp")), "%s ecx, [ebp]" % op
        yield "AluImm(%s, %s, 1)" % (shown, rm("ebx")), "%s ebx, 1" % op
    for n in (-129, -128, 127, 128):
        yield "AluImm(AluOp::Add, %s, %s)" % (rm("edi"), number(n)), "add edi, %d" % n
    yield "AluImm(AluOp::Cmp, %s, 1000)" % rm(("edi", 0)), "cmp dword ptr [edi], 1000"
    yield "Test(%s, %s)" % (rm(("eax", 0)), reg("eax")), "test [eax], eax"
    for op in "inc dec push pop".split():
        for r in ("eax", "edi"):
            yield "%s(%s)" % (op.capitalize(), reg(r)), "%s %s" % (op, r)
    yield "PushImm(0x1234_5678)", "push 0x12345678"
    for op in "shl shr sar".split():
        yield "Shift(ShiftOp::%s, %s, 31)" % (op.capitalize(), rm("edx")), "%s edx, 31" % op
        yield "Shift(ShiftOp::%s, %s, 255)" % (op.capitalize(), rm(("ebp", 0))), "%s dword ptr [ebp], 255" % op
    yield "Imul(%s, %s)" % (reg("edi"), rm("ecx")), "imul edi, ecx"
    yield "Imul(%s, %s)" % (reg("esi"), rm(("ebx", 300))), "imul esi, [ebx+300]"
    for op in "not neg mul div".split():
        yield "Unary(UnaryOp::%s, %s)" % (op.capitalize(), rm("esi")), "%s esi" % op
        yield "Unary(UnaryOp::%s, %s)" % (op.capitalize(), rm((None, 64))), "%s dword ptr ds:64" % op
    yield "Jmp(0xFFFF_FFFE)", "{disp32} jmp .+3"
    for cc in "o no b ae e ne be a s ns l ge le g".split():
        yield "Jcc(Cond::%s, 0x100)" % cc.capitalize(), "{disp32} j%s .+0x106" % cc
    yield "Call(0xFFFF_FFF0)", "call .-11"
    yield "Ret", "ret"
    yield "Gate(0x80)", "int 0x80"
    yield "Nop", "nop"


def others():
    yield "Load(%s, 7)" % reg("esi"), ".byte 0xc7, 0xc6, 7, 0, 0, 0"
    yield "MovTo(%s, %s)" % (rm("eax"), reg("ebx")), "{load} mov eax, ebx"
    for op in "add or and sub xor cmp".split():
        yield "Alu(AluOp::%s, %s, %s)" % (op.capitalize(), rm("edx"), reg("esi")), "{load} %s edx, esi" % op
    yield "AluImm(AluOp::Sub, %s, 0xFFFF_FFFC)" % rm("esp"), ".byte 0x81, 0xec, 0xfc, 0xff, 0xff, 0xff"
    yield "Jmp(0xFFFF_FFFE)", "jmp ."
    for cc in "o le g".split():
        yield "Jcc(Cond::%s, 0x7F)" % cc.capitalize(), "j%s .+0x81" % cc
    yield "MovFrom(%s, %s)" % (reg("eax"), mem("ecx")), "{disp8} mov eax, [ecx]"
    yield "MovFrom(%s, %s)" % (reg("eax"), mem("esp", 1)), "{disp32} mov eax, [esp+1]"
    yield "MovFrom(%s, %s)" % (reg("eax"), mem("ebp", 0)), "{disp32} mov eax, [ebp]"


def spelled(statement):
    """The bytes of one statement, assembled alone, so that `.` is its own address."""
    with tempfile.NamedTemporaryFile(suffix=".o") as made:
        text = ".intel_syntax noprefix\n" + statement + "\n"
        subprocess.run(["as", "--32", "-o", made.name, "-"], input=text.encode(), check=True)
        with tempfile.NamedTemporaryFile() as flat:
            subprocess.run(["objcopy", "-O", "binary", "-j", ".text", made.name, flat.name], check=True)
            return open(flat.name, "rb").read()


def main():
    for rows in (chosen(), others()):
        for ins, statement in rows:
            code = ", ".join("0x%02X" % b for b in spelled(statement))
            print("    (Ins::%s, &[%s])," % (ins, code))
        print()


if __name__ == "__main__":
    main()
