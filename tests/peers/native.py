#!/usr/bin/env python3
"""Runs PALs of random code on this x86-64 processor and in sessions of flicker, and compares what they come to.

    tests/peers/native.py [PALS [SEED [WORDS..]]]

makes PALS PALs (4,000; at most 50,000, two lines of a script each) from SEED (1), and runs flicker by WORDS, which are
./flicker if there are none. Its last lines are the numbers of PALs by their ends, and of differences; the status is 1
where there is one.

The processor runs the very bytes of the image: in a 32-bit program, code and data segments of the region's 65,536 bytes
(modify_ldt) make addresses offsets in the region and bar all others, the trap flag counts the turns, and a filter of
system calls (seccomp) stops at `int 0x80`. It needs Linux on x86-64 with these, and gcc -m32, but no 32-bit libraries.

Compared are the end, the turns, the outputs, and register 17 after the session, by hashlib over the chain: a PAL that
is not cut short stores its registers and, by conditional jumps, its flags, and then extends register 17 by the whole
region. So it is what the processor leaves of registers, flags and memory that is compared, but for those flags that the
i386 manuals leave undefined and the profile keeps: no jump depends on them.

Where a session differs from a processor by its rules no PAL goes: no jump leaves the region, where the processor faults
at the jump and a session at the turn after it; no instruction begins in the region and ends outside, which is another
fault; no instruction is carried out that the profile leaves out and the processor has; no gate but 0x80 is called.
"""

import hashlib
import os
import random
import struct
import subprocess
import sys
import tempfile

HARNESS = r"""
typedef unsigned int u32;
typedef unsigned short u16;
typedef unsigned char u8;

struct context {
    u32 gs, fs, es, ds, edi, esi, ebp, esp, ebx, edx, ecx, eax, trap, error, eip, cs, eflags, esp_at_signal, ss;
};
struct frame { u32 flags, link, stack[3]; struct context at; };
struct action { void *handler; u32 flags; void *restorer; u32 mask[2]; };
struct descriptor { u32 entry, base, limit, flags; };
struct check { u16 code; u8 yes, no; u32 value; };
struct program { u16 count; struct check *checks; };

enum { SIGILL = 4, SIGTRAP = 5, SIGBUS = 7, SIGFPE = 8, SIGUSR1 = 10, SIGSEGV = 11, SIGSYS = 31 };
enum { DONE, INSTRUCTION, SEGMENT, DIVIDE, BUDGET, RUNNING };

static u8 region[65536] __attribute__((aligned(4096)));
static u8 stack[65536];
static struct context home;
static u32 end, turns, length, budget, entry, inputs;

static int call(int number, u32 a, u32 b, u32 c, u32 d, u32 e)
{
    int answer;
    __asm__ volatile("int $0x80" : "=a"(answer) : "a"(number), "b"(a), "c"(b), "d"(c), "S"(d), "D"(e) : "memory");
    return answer;
}
void *memcpy(void *to, const void *from, u32 count)
{
    for (u32 i = 0; i < count; i++)
        ((u8 *)to)[i] = ((const u8 *)from)[i];
    return to;
}
static void leave(int status)
{
    for (;;)
        call(1, status, 0, 0, 0, 0);
}
static void ask(int answer)
{
    if (answer < 0)
        leave(3);
}
static void give(const void *bytes, u32 count)
{
    const u8 *from = bytes;
    while (count) {
        int n = call(4, 1, (u32)from, count, 0, 0);
        ask(n);
        from += n;
        count -= n;
    }
}
static int take(void *bytes, u32 count)
{
    u8 *to = bytes;
    while (count) {
        int n = call(3, 0, (u32)to, count, 0, 0);
        ask(n);
        if (n == 0)
            return 0;
        to += n;
        count -= n;
    }
    return 1;
}

/* Service 1 hands its text out; service 0 and other numbers end. */
static void gate(struct context *at)
{
    if (at->eax == 0) {
        end = at->ebx > 4096 ? SEGMENT : DONE;
        length = at->ebx;
    } else if (at->eax == 1) {
        if ((unsigned long long)at->ebx + at->ecx > 65536) {
            end = SEGMENT;
            return;
        }
        give(&at->ecx, 4);
        give(region + at->ebx, at->ecx);
        at->eax = 0;
    } else {
        end = INSTRUCTION;
    }
}
static void begin(struct context *at)
{
    home = *at;
    at->eax = at->edx = at->ebx = at->ebp = 0;
    at->ecx = inputs;
    at->esi = at->esp = 57344;
    at->edi = 61440;
    at->eip = entry;
    at->eflags = 0x302;
    at->cs = 15;
    at->ss = at->ds = at->es = 7;
    end = RUNNING;
    turns = 0;
}
static void on_signal(int signal, void *info, struct frame *frame)
{
    struct context *at = &frame->at;
    if (signal == SIGUSR1) {
        begin(at);
        return;
    }
    if ((at->cs & 0xffff) != 15)
        leave(4);
    turns++;
    if (signal == SIGSYS)
        gate(at);
    else if (signal != SIGTRAP)
        end = signal == SIGFPE ? DIVIDE : signal == SIGILL ? INSTRUCTION : SEGMENT;
    if (end == RUNNING && turns == budget)
        end = BUDGET;
    if (end != RUNNING)
        *at = home;
}
__asm__("back: movl $173, %eax; int $0x80");
extern void back(void);

static void segments(void)
{
    struct descriptor of_data = {0, (u32)region, 65535, 0x41};
    struct descriptor of_code = {1, (u32)region, 65535, 0x45};
    ask(call(125, (u32)region, sizeof region, 7, 0, 0));
    ask(call(123, 1, (u32)&of_data, sizeof of_data, 0, 0));
    ask(call(123, 1, (u32)&of_code, sizeof of_code, 0, 0));
}
static void signals(void)
{
    static const u8 all[] = {SIGILL, SIGTRAP, SIGBUS, SIGFPE, SIGUSR1, SIGSEGV, SIGSYS};
    u32 other[3] = {(u32)stack, 0, sizeof stack};
    struct action action = {(void *)on_signal, 0x0c000004, (void *)back, {0, 0}};
    ask(call(186, (u32)other, 0, 0, 0, 0));
    for (u32 i = 0; i < sizeof all; i++)
        ask(call(174, all[i], (u32)&action, 0, 8, 0));
}
/* A system call that ends in the region, at its end at most, is a signal: this program's own lie higher. */
static void filter(void)
{
    struct check checks[] = {{0x20, 0, 0, 8}, {0x25, 0, 1, 65536}, {6, 0, 0, 0x7fff0000}, {6, 0, 0, 0x00030000}};
    struct program program = {4, checks};
    ask(call(172, 38, 1, 0, 0, 0));
    ask(call(172, 22, 2, (u32)&program, 0, 0));
}
void _start(void)
{
    u32 head[4];
    segments();
    signals();
    filter();
    while (take(head, sizeof head)) {
        for (u32 i = 0; i < sizeof region; i++)
            region[i] = 0;
        entry = head[0];
        budget = head[1];
        inputs = head[2];
        if (!take(region + 57344, inputs) || !take(region, head[3]))
            leave(5);
        ask(call(37, call(20, 0, 0, 0, 0, 0), SIGUSR1, 0, 0, 0));
        u32 last[4] = {0xffffffff, end, turns, end == DONE ? length : 0};
        give(last, sizeof last);
        give(region + 61440, 4096);
    }
    leave(0);
}
"""

FLAGS = ["-m32", "-O1", "-ffreestanding", "-fno-stack-protector", "-fno-pic", "-fno-pie", "-no-pie", "-mno-sse",
         "-fno-tree-loop-distribute-patterns", "-nostdlib", "-static"]

# The flags, each of which may be unsure: left undefined by the manuals.
EVERY = frozenset("CZSO")
# The conditions by their codes, each with the flags that it reads; the parity flag's are none of the profile.
CONDITIONS = {0: "O", 1: "O", 2: "C", 3: "C", 4: "Z", 5: "Z", 6: "CZ", 7: "CZ", 8: "S", 9: "S", 12: "SO", 13: "SO",
              14: "ZSO", 15: "ZSO"}
EAX, ECX, EDX, EBX, ESP, EBP, ESI, EDI = range(8)
VALUES, POINTERS = [EAX, ECX, EDX, EBX], [EBP, ESI, EDI]
OPS = [0, 1, 4, 5, 6, 7]
# Where code may write without changing itself: its front, a part in the middle, the inputs, the outputs.
WINDOWS = [(0, 28), (0x9000, 0xB000), (0xE000, 0xEFF0), (0xF000, 0xFFFC)]
# What pointers are set to: with a displacement of at most 0x300 they stay in a window.
CENTRES = [(0x9400, 0xAC00), (0xE400, 0xEB00), (0xF400, 0xFB00)]
COUNTERS, STACKS, DUMP = 0x8000, (0xC800, 0xDC00), 0xF000
EDGES = [0, 1, 2, 3, 31, 32, 127, 128, 255, 0x7FFF, 0x8000, 0xFFFF, 0x10000, 0x7FFFFFFF, 0x80000000, 0xFFFFFF80,
         0xFFFFFFFE, 0xFFFFFFFF]


def word(n):
    return struct.pack("<I", n % 2**32)


def is_signed_byte(n):
    return n % 2**32 < 0x80 or n % 2**32 >= 0xFFFFFF80


class Pal:
    """Code whose loops are counted, as pieces: bytes, or jumps and addresses that wait for the layout."""

    def __init__(self, chance):
        self.chance = chance
        self.pieces = []
        self.labels = {}
        self.ahead = []
        self.unsure = frozenset()
        self.in_function = False
        self.functions = []
        self.counters = 0

    # Pieces.

    def put(self, *parts):
        self.pieces.append(("bytes", b"".join(bytes([part]) if isinstance(part, int) else part for part in parts)))

    def label(self):
        name = len(self.labels)
        self.labels[name] = None
        return name

    def here(self, name):
        self.labels[name] = len(self.pieces)

    def jump(self, long, short, name):
        is_short = short is not None and self.chance.random() < 0.5
        self.pieces.append(("short" if is_short else "long", long, short, name))

    def with_address(self, front, name, offset, back=b""):
        self.pieces.append(("address", front, name, offset, back))

    def layout(self):
        """The bytes of the code, which stands at 32."""
        while True:
            places, at = [], 32
            for piece in self.pieces:
                places.append(at)
                at += self.size(piece)
            places.append(at)
            far = [i for i, piece in enumerate(self.pieces) if piece[0] == "short"
                   and not -128 <= places[self.labels[piece[3]]] - places[i] - 2 <= 127]
            if not far:
                return b"".join(self.spelled(piece, places, i) for i, piece in enumerate(self.pieces))
            for i in far:
                self.pieces[i] = ("long",) + self.pieces[i][1:]

    @staticmethod
    def size(piece):
        if piece[0] == "bytes":
            return len(piece[1])
        if piece[0] == "address":
            return len(piece[1]) + 4 + len(piece[4])
        return 2 if piece[0] == "short" else len(piece[1]) + 4

    def spelled(self, piece, places, i):
        if piece[0] == "bytes":
            return piece[1]
        if piece[0] == "address":
            return piece[1] + word(places[self.labels[piece[2]]] + piece[3]) + piece[4]
        distance = places[self.labels[piece[3]]] - places[i] - self.size(piece)
        if piece[0] == "short":
            return piece[2] + struct.pack("<b", distance)
        return piece[1] + word(distance)

    # Operands.

    def number(self):
        pick = self.chance.random()
        if pick < 0.4:
            return self.chance.choice(EDGES)
        return self.chance.randrange(-128, 128) % 2**32 if pick < 0.6 else self.chance.getrandbits(32)

    def value(self):
        return self.chance.choice(VALUES)

    def any_register(self):
        return self.chance.choice(VALUES * 3 + POINTERS + [ESP])

    def based(self, reg, base, disp):
        """A ModRM byte and what follows, by one of the forms that the displacement has."""
        forms = [2]
        if is_signed_byte(disp):
            forms.append(1)
        if disp % 2**32 == 0 and base != EBP:
            forms.append(0)
        mod = self.chance.choice(forms)
        sib = b"\x24" if base == ESP else b""
        return bytes([mod << 6 | reg << 3 | base]) + sib + (b"", word(disp)[:1], word(disp))[mod]

    def absolute(self, reg, at):
        return bytes([reg << 3 | 5]) + word(at)

    def memory(self, reg):
        """An operand in a window, or on the stack."""
        pick = self.chance.random()
        if pick < 0.4:
            return self.absolute(reg, self.chance.randrange(*self.chance.choice(WINDOWS)))
        if pick < 0.5 and not self.in_function:
            return self.based(reg, ESP, self.chance.randrange(-0x40, 0x80))
        near = self.chance.random() < 0.6
        disp = self.chance.randrange(-128, 128) if near else self.chance.randrange(-0x300, 0x300)
        return self.based(reg, self.chance.choice(POINTERS), 0 if pick > 0.9 else disp)

    def wild(self, reg):
        """An operand that may lie anywhere: nothing is stored there."""
        if self.chance.random() < 0.3:
            return self.absolute(reg, self.chance.choice([65528, 65532, 65533, 65535, 65536, 2**32 - 4, 2**32 - 1]))
        return self.based(reg, self.value(), self.chance.choice([0, 0, 1, -1, 4, 127, -128, 128, 0x1000, 2**31]))

    def source(self, reg):
        pick = self.chance.random()
        if pick < 0.5:
            return bytes([0xC0 | reg << 3 | self.any_register()])
        return self.wild(reg) if pick > 0.99 else self.memory(reg)

    def target(self, reg):
        return bytes([0xC0 | reg << 3 | self.value()]) if self.chance.random() < 0.6 else self.memory(reg)

    # Units: instructions that stay together. No jump leads into one.

    def load(self):
        r = self.value()
        self.put(*([0xB8 + r] if self.chance.random() < 0.7 else [0xC7, 0xC0 | r]), word(self.number()))

    def point(self):
        r, pick = self.chance.choice(POINTERS), self.chance.random()
        at = self.chance.randrange(*self.chance.choice(CENTRES))
        if pick < 0.5:
            self.put(0xB8 + r, word(at))
        elif pick < 0.7:
            self.put(0x8D, self.absolute(r, at))
        elif pick < 0.8 and not self.in_function:
            self.put(0x68, word(at))
            self.put(0x58 + r)
        else:
            self.put(0x83, 0xC0 | self.chance.choice([0, 5]) << 3 | r, self.chance.randrange(16))
            self.unsure = frozenset()

    def store_number(self):
        self.put(0xC7, self.memory(0), word(self.number()))

    def move(self):
        pick = self.chance.random()
        if pick < 0.3:
            self.put(0x89, self.memory(self.any_register()))
        elif pick < 0.6:
            self.put(0x8B, self.source(self.value()))
        else:
            self.put(0x89, 0xC0 | self.any_register() << 3 | self.value())

    def byte(self):
        pick = self.chance.random()
        low = self.value()
        if pick < 0.3:
            self.put(0x88, self.memory(low))
        elif pick < 0.6:
            self.put(0x8A, self.wild(low) if pick > 0.595 else self.memory(low))
        elif pick < 0.8:
            self.put(0x0F, 0xB6, self.memory(self.value()))
        else:
            self.put(0x0F, 0xB6, 0xC0 | self.value() << 3 | low)

    def address(self):
        self.put(0x8D, self.chance.choice([self.memory, self.wild])(self.value()))

    def arithmetic(self):
        op, pick = self.chance.choice(OPS), self.chance.random()
        if pick < 0.3:
            self.put(op << 3 | 1, self.target(self.any_register()))
        elif pick < 0.6:
            self.put(op << 3 | 3, self.source(self.value()))
        else:
            n = self.number()
            if is_signed_byte(n) and self.chance.random() < 0.7:
                self.put(0x83, self.target(op), word(n)[:1])
            else:
                self.put(0x81, self.target(op), word(n))
        self.unsure = frozenset()

    def test(self):
        self.put(0x85, self.source(self.any_register()))
        self.unsure = frozenset()

    def step(self):
        r = self.chance.choice(VALUES * 4 + POINTERS)
        self.put(self.chance.choice([0x40, 0x48]) + r)
        self.unsure &= {"C"}

    def shift(self):
        count = self.chance.choice([0, 1, 1, 1, 2, 31, 32, 33, 255, self.chance.randrange(256)])
        self.put(0xC1, self.target(self.chance.choice([4, 5, 7])), count)
        if count % 32:
            self.unsure = frozenset() if count % 32 == 1 else frozenset("O")

    def product(self):
        if self.chance.random() < 0.6:
            self.put(0x0F, 0xAF, self.source(self.value()))
        else:
            self.put(0xF7, self.source(4))
        self.unsure = frozenset("ZS")

    def unary(self):
        op = self.chance.choice([2, 3])
        self.put(0xF7, self.target(op))
        if op == 3:
            self.unsure = frozenset()

    def quotient(self):
        """Mostly one that 32 bits hold."""
        if self.chance.random() < 0.03:
            self.put(0xF7, self.source(6))
        else:
            divisor = self.number() or 1
            rest = self.chance.randrange(divisor) if self.chance.random() < 0.7 else 0
            self.put(0xB8 + EDX, word(rest))
            if self.chance.random() < 0.7:
                r = self.chance.choice([ECX, EBX])
                self.put(0xB8 + r, word(divisor))
                self.put(0xF7, 0xF0 | r)
            else:
                at = word(self.chance.randrange(*WINDOWS[1]))
                self.put(0xC7, 0x05, at, word(divisor))
                self.put(0xF7, 0x35, at)
        self.unsure = EVERY

    def stack(self):
        if self.in_function:
            return
        pick = self.chance.random()
        if pick < 0.35:
            self.put(0x50 + self.any_register())
        elif pick < 0.5:
            self.put(0x68, word(self.number()))
        elif pick < 0.8:
            self.put(0x58 + self.value())
        elif pick < 0.82:
            self.put(self.chance.choice([0x40, 0x48]) + ESP)
            self.unsure &= {"C"}
        elif pick < 0.85:
            self.put(0x83, 0xC4 | self.chance.choice([0, 5]) << 3, self.chance.randrange(64))
            self.unsure = frozenset()
        elif pick < 0.95:
            at = word(self.chance.randrange(*STACKS))
            self.put(*([0xB8 + ESP, at] if pick < 0.9 else [0x8D, 0x25, at]))
        else:
            self.put(0x68, word(self.chance.randrange(*STACKS)))
            self.put(0x58 + ESP)

    def nothing(self):
        self.put(0x90)

    def branch(self):
        """A jump ahead over some units, where the flags that it reads are sure."""
        sure = [code for code, flags in CONDITIONS.items() if not self.unsure & set(flags)]
        name = self.label()
        if sure and self.chance.random() < 0.85:
            code = self.chance.choice(sure)
            self.jump(bytes([0x0F, 0x80 + code]), bytes([0x70 + code]), name)
        elif self.chance.random() < 0.7 or self.in_function:
            self.jump(b"\xe9", b"\xeb", name)
        else:
            self.with_address(b"\x68", name, 0)
            self.put(0xC3)
        self.ahead.append([name, self.chance.randrange(1, 8), self.unsure])

    def patch(self):
        """Changes the instruction behind it: the number that it loads, or which register it steps and how."""
        name = self.label()
        if self.chance.random() < 0.5:
            self.with_address(b"\xc7\x05", name, 1, word(self.number()))
            self.here(name)
            self.put(0xB8 + self.value(), word(self.number()))
        else:
            r = self.value()
            self.put(0xB8 + r, self.chance.choice([0x40, 0x48]) + self.value(), word(self.number())[1:])
            self.with_address(bytes([0x88, r << 3 | 5]), name, 0)
            self.here(name)
            self.put(0x40 + self.value())
            self.unsure &= {"C"}

    def extend(self):
        if self.in_function:
            return
        offset = self.chance.choice([0, 32, 57344, 61440, 65536, self.chance.randrange(65536)])
        count = self.chance.choice([0, 1, 65536 - offset if offset > 65000 else 64, self.chance.randrange(200)])
        self.put(0xB8 + EBX, word(offset))
        self.put(0xB8 + ECX, word(count))
        self.put(0xB8 + EAX, word(1))
        self.put(0xCD, 0x80)

    # What ends the code, mostly by a fault.

    def service(self):
        """One of the numbers that no service has."""
        self.put(0xB8 + EAX, word(self.chance.randrange(9, 2**32)))
        self.put(0xCD, 0x80)

    def undefined(self):
        """An instruction that the processor does not know either."""
        self.put(self.chance.choice([b"\x0f\x0b", b"\x8d\xc1", b"\xc7\xc8\x00\x00\x00\x00", b"\x0f\xff\xc0"]))

    def endless(self):
        self.put(0xE9, word(-5))

    def last(self):
        """Runs on past the region's last bytes, or ends at a gate there."""
        ends = [b"\x90" * 4, b"\x40\x49\x90\x43", b"\x01\xd8\xf7\xd1", b"\x90\x90\xcd\x80", b"\x31\xc0\xcd\x80"]
        self.put(0xC7, 0x05, word(65532), self.chance.choice(ends))
        self.put(0xB8 + EAX, word(65532))
        self.put(0x50)
        self.put(0xC3)

    def escape(self):
        """A store that is outside, wherever: its address is at least 0xffff0000."""
        r = self.value()
        self.put(0x81, 0xC8 | r, word(0xFFFF0000))
        self.put(self.chance.choice([b"\x89", b"\x01", b"\x88"]), self.value() << 3 | r)

    def loop(self):
        self.settle()
        at = COUNTERS + 4 * self.counters
        self.counters += 1
        head = self.label()
        self.put(0xC7, 0x05, word(at), word(self.chance.randrange(1, 7)))
        self.here(head)
        self.unsure = EVERY
        self.units(self.chance.randrange(2, 12), SIMPLE)
        self.settle()
        self.put(0x83, 0x05, word(at), 0xFF)
        self.jump(b"\x0f\x85", b"\x75", head)
        self.unsure = frozenset()

    def call(self):
        if self.in_function:
            return
        name = self.label()
        self.functions.append(name)
        self.jump(b"\xe8", None, name)
        self.unsure = EVERY

    # The whole.

    def settle(self, count=None):
        """The jumps that are due, or all, lead here."""
        due = [entry for entry in self.ahead if count is None or entry[1] <= 0]
        self.ahead = [entry for entry in self.ahead if entry not in due]
        for name, _, unsure in due:
            self.here(name)
            self.unsure |= unsure

    def units(self, count, kinds):
        for _ in range(count):
            for entry in self.ahead:
                entry[1] -= 1
            self.settle(0)
            self.chance.choice(kinds)(self)

    def dump(self):
        for r in range(8):
            self.put(0x89, self.absolute(r, DUMP + 4 * r))
        for i, (code, flags) in enumerate(CONDITIONS.items()):
            if not self.unsure & set(flags):
                at = word(DUMP + 32 + 4 * i)
                name = self.label()
                self.put(0xC7, 0x05, at, word(1))
                self.jump(bytes([0x0F, 0x80 + code]), bytes([0x70 + code]), name)
                self.put(0xC7, 0x05, at, word(2))
                self.here(name)

    def finish(self):
        for r, n in ((EAX, 1), (EBX, 0), (ECX, 65536)):
            self.put(0xB8 + r, word(n))
        self.put(0xCD, 0x80)
        self.put(0xB8 + EBX, word(self.chance.choice([0, 96, 96, 96, 4096, 4096, 4097, self.chance.randrange(4096)])))
        self.put(0xCD, 0x80)

    def code(self):
        if self.chance.random() < 0.5:
            for r in self.chance.sample(range(8), 4):
                self.put(0x89, self.absolute(r, DUMP + 0x100 + 4 * r))
        for r in POINTERS:
            self.put(0xB8 + r, word(self.chance.randrange(*self.chance.choice(CENTRES))))
        self.units(self.chance.randrange(5, 70), SIMPLE * 3 + STRUCTURED)
        self.settle()
        if self.chance.random() < 0.1:
            self.chance.choice([Pal.service, Pal.undefined, Pal.endless, Pal.last, Pal.escape])(self)
        self.dump()
        self.finish()
        for name in self.functions:
            self.in_function = True
            self.here(name)
            self.unsure = EVERY
            self.units(self.chance.randrange(2, 9), SIMPLE)
            self.settle()
            self.put(0xC3)
        return self.layout()


SIMPLE = ([Pal.load, Pal.move, Pal.arithmetic, Pal.byte, Pal.step, Pal.shift, Pal.branch] * 3
          + [Pal.point, Pal.store_number, Pal.address, Pal.test, Pal.product, Pal.unary, Pal.stack, Pal.nothing]
          + [Pal.arithmetic] * 6 + [Pal.quotient])
STRUCTURED = [Pal.loop, Pal.call, Pal.patch, Pal.extend, Pal.stack, Pal.stack]


class Case:
    """A PAL, what it is given, and how often it may take a turn."""

    def __init__(self, chance):
        code = Pal(chance).code()
        self.budget = chance.choice([3000, 3000, 3000, chance.randrange(1, 300)])
        self.inputs = chance.randbytes(chance.choice([0, 1, 3, 64, chance.randrange(256)]))
        self.nonce = chance.randbytes(20)
        self.image = struct.pack("<HH4sHHI16s", 32, 32 + len(code), b"FLKC", 1, 0, self.budget, b"") + code

    def lines(self):
        words = ("session", self.image, self.inputs, self.nonce)
        return " ".join(word if isinstance(word, str) else "x:" + word.hex() for word in words) + "\nread 17\n"

    def record(self):
        return struct.pack("<IIII", 32, self.budget, len(self.inputs), len(self.image)) + self.inputs + self.image

    def wanted(self, stream):
        """The answers of the two lines, from what the processor did."""
        value = bytes(20)

        def extend(text):
            nonlocal value
            value = hashlib.sha1(value + hashlib.sha1(text).digest()).digest()

        extend(self.image)
        while True:
            count, = struct.unpack("<I", stream.read(4))
            if count == 0xFFFFFFFF:
                break
            extend(b"pal" + stream.read(count))
        end, turns, count = struct.unpack("<III", stream.read(12))
        outputs = stream.read(4096)[:count]
        for text in (b"in" + self.inputs, b"out" + outputs, b"end" + bytes([end]) + self.nonce, b"close"):
            extend(text)
        name = ["done", "fault 1", "fault 2", "fault 3", "budget"][end]
        return name, turns, ["ok %s turns %d dma 0 0 0 x:%s" % (name, turns, outputs.hex()), "ok x:" + value.hex()]


def built(folder):
    source, program = os.path.join(folder, "native.c"), os.path.join(folder, "native")
    with open(source, "w") as file:
        file.write(HARNESS)
    subprocess.run(["gcc", *FLAGS, "-o", program, source], check=True)
    return program


def answers(words, cases):
    """The transcript of all cases, without the numbers of lines."""
    script = "".join(case.lines() for case in cases)
    run = subprocess.run([*words, "run"], input=script.encode(), stdout=subprocess.PIPE, check=True)
    return [line.split(" ", 1)[1] for line in run.stdout.decode().splitlines()]


def compared(program, cases, transcript):
    """How many cases ended how, their turns, and what differs."""
    ends, turns, different = {}, 0, 0
    with tempfile.TemporaryFile() as records:
        records.write(b"".join(case.record() for case in cases))
        records.seek(0)
        with subprocess.Popen([program], stdin=records, stdout=subprocess.PIPE) as harness:
            for i, case in enumerate(cases):
                end, count, wanted = case.wanted(harness.stdout)
                ends[end] = ends.get(end, 0) + 1
                turns += count
                if transcript[2 * i:2 * i + 2] != wanted:
                    different += 1
                    print("PAL %d differs:\n%s" % (i, case.lines()))
                    print("processor:", *wanted, "flicker:", *transcript[2 * i:2 * i + 2], sep="\n")
    return ends, turns, different


def main():
    count = int(sys.argv[1]) if len(sys.argv) > 1 else 4000
    seed = int(sys.argv[2]) if len(sys.argv) > 2 else 1
    words = sys.argv[3:] or ["./flicker"]
    chance = random.Random(seed)
    cases = [Case(chance) for _ in range(count)]
    transcript = answers(words, cases)
    with tempfile.TemporaryDirectory() as folder:
        ends, turns, different = compared(built(folder), cases, transcript)
    print("%d PALs, %d turns: %s" % (count, turns, ", ".join("%d %s" % (n, end) for end, n in sorted(ends.items()))))
    print("%d differences" % different)
    return different != 0


if __name__ == "__main__":
    sys.exit(main())
