#!/usr/bin/env python3
"""Makes stdin and stdout of this program: cases, and what a reader and writer of heads answers, worked out here.

usage: make_vectors.py            writes stdin and stdout beside this file
       make_vectors.py --heads    prints the well-formed heads among the cases, a line of JSON each, for marshal/main.go

The reader below is written from document 01 ("The head (Sia encoding)") alone.
"""
import json, os, struct, sys

NAMES = [b"Read", b"ReadSector", b"Write", b"Copy", b"Swap", b"Truncate"]
TOP = 2**64 - 1


def name(word):
    return word.ljust(16, b"\0")


def u64(n):
    return struct.pack("<Q", n)


def instruction(word, operands, proof):
    return name(word) + u64(len(operands)) + b"".join(struct.pack("<QQ", o, n) for o, n in operands) + bytes([proof])


def head(contract, instructions, length):
    return contract + u64(len(instructions)) + b"".join(instruction(*i) for i in instructions) + u64(length)


# ---- the reader

class Fault(Exception):
    pass


class Source:
    def __init__(self, data):
        self.data, self.at = data, 0

    def take(self, n):
        if len(self.data) - self.at < n:
            raise Fault(9)
        self.at += n
        return self.data[self.at - n : self.at]

    def number(self):
        return struct.unpack("<Q", self.take(8))[0]

    def limited(self, limit):
        n = self.number()
        if n > limit:
            raise Fault(10)
        return n


def read(data):
    s = Source(data)
    contract = s.take(32)
    instructions = []
    for _ in range(s.limited(32)):
        word = s.take(16)
        operands = [(s.number(), s.number()) for _ in range(s.limited(4))]
        flag = s.take(1)[0]
        if flag > 1:
            raise Fault(9)
        instructions.append((word, operands, flag))
    length = s.limited(65536)
    if s.at != len(data):
        raise Fault(9)
    return contract, instructions, length


# ---- the line that the program writes

def shown(word, operands, flag):
    op = NAMES.index(word.rstrip(b"\0")) + 1 if word.rstrip(b"\0") in NAMES else 0
    full = list(operands) + [(0, 0)] * (4 - len(operands))
    return f" [{op} {word.hex()} {len(operands)}" + "".join(f" {o},{n}" for o, n in full) + f" {flag}]"


def line(data):
    try:
        contract, instructions, length = read(data)
    except Fault as fault:
        return f"{fault.args[0]} 1"
    out = f"0 {contract.hex()} read-only {int(contract == b'ReadOnly'.ljust(32, bytes(1)))} count {len(instructions)}"
    for entry in instructions:
        out += shown(*entry)
    if len(instructions) < 32:
        out += shown(bytes(16), [], 0)
    out += f" length {length} written 0 {len(data)} 11 short 2 0 1 above"
    return out + " 10 0 1" * 5


# ---- the cases

ID = bytes(range(1, 33))
READ_ONLY = b"ReadOnly".ljust(32, b"\0")


def shapes():
    """Heads of every shape: instruction and operand counts, names, flags, and numbers at their ends."""
    yield ID, [], 0
    yield READ_ONLY, [], 65536
    yield READ_ONLY[:31] + b"\1", [], 65535
    yield b"ReadOnlY".ljust(32, b"\0"), [], 1
    yield bytes(32), [], 8
    yield bytes([255]) * 32, [], 65536
    yield ID, [(b"Truncate", [(0, 8)], 0)], 8
    for k in range(5):
        for flag in (0, 1):
            yield ID, [(b"Read", [(8 * j, 8) for j in range(k)], flag)], 64
    for word in NAMES + [b"", b"Alloc", b"read", b"Truncatf", b"Truncate\0\0\0\0\0\0\0\1", b"ReadSectos", b"Read\0Sector", bytes([255]) * 16]:
        yield ID, [(word, [(1, 2), (3, 4), (5, 6)], 1)], 100
    for n in (0, 1, 255, 256, 65535, 65536, 2**32 - 1, 2**32, 2**63, TOP - 1, TOP, 0x0102030405060708):
        yield ID, [(b"Copy", [(n, 0), (0, n), (n, n)], 0)], 1000
    for count in range(33):
        yield ID, [(NAMES[i % 6], [(i, j) for j in range((i + count) % 5)], i % 2) for i in range(count)], 2048 * count % 65537
    # a later entry shorter than an earlier one: nothing of the earlier is kept
    yield ID, [(b"Read", [(1, 2), (3, 4), (5, 6), (7, 8)], 1), (b"", [], 0), (b"Swap", [(9, 10)], 0)], 16
    yield ID, [(b"Write", [(TOP, TOP)] * 4, 1)] * 32, 65536


SMALL = (ID, [(b"Truncate", [(0, 8)], 0)], 8)
LONG = (READ_ONLY, [(b"Read", [(0, 32), (32, 8), (40, 8)], 1), (b"ReadSector", [(0, 32), (32, 8), (40, 8)], 0), (b"Copy", [(1, 8), (9, 8), (17, 8), (25, 0)], 0)], 48)


def cases():
    for shape in shapes():
        yield head(*shape)
    whole = head(*LONG)
    for n in range(len(whole)):
        yield whole[:n]
    small = head(*SMALL)
    assert len(small) == 89
    for at in range(len(small)):
        for byte in sorted({small[at] ^ 1, small[at] ^ 128, small[at] ^ 255, 0, 1, 2, 255} - {small[at]}):
            yield small[:at] + bytes([byte]) + small[at + 1 :]
    # every value of the flag, and of the lowest byte of each count and of the declared length
    for at in (80, 32, 56, 81):
        for byte in range(256):
            yield small[:at] + bytes([byte]) + small[at + 1 :]
    # counts and lengths at their limits, one above, far above; alone, and with all bytes that they ask for
    for n in (0, 1, 31, 32, 33, 255, 256, 65536, 2**32, 2**63, TOP - 1, TOP):
        yield ID + u64(n)
        yield ID + u64(n) + instruction(b"Read", [], 0) * min(n, 40) + u64(0)
    for n in (0, 1, 3, 4, 5, 255, 256, 2**32, 2**63, TOP - 1, TOP):
        front = ID + u64(1) + name(b"Swap") + u64(n)
        yield front
        yield front + bytes(16) * min(n, 8) + b"\0" + u64(0)
    for n in (0, 1, 65535, 65536, 65537, 131072, 2**32, 2**63, TOP - 1, TOP):
        yield ID + u64(0) + u64(n)
        yield small[:81] + u64(n)
    # bytes left over, and a fault in front of one
    for more in (b"\0", b"\1", bytes(7), bytes(8), bytes(89), small):
        yield small + more
        yield head(ID, [], 0) + more
        yield head(ID, [], 65537) + more
        yield small[:80] + b"\2" + small[81:] + more
    # the fault that comes first is the one that counts: a flag in front of a length, a count in front of missing bytes
    yield small[:80] + b"\2" + u64(TOP)
    yield small[:80] + b"\377" + u64(0)
    yield small[:80] + b"\2"
    yield small[:81] + u64(TOP)[:7]
    yield ID + u64(2) + instruction(b"Read", [], 2) + name(b"Read") + u64(5)
    yield ID + u64(2) + instruction(b"Read", [], 1) + name(b"Read") + u64(5)


def main():
    if "--heads" in sys.argv:
        for contract, instructions, length in shapes():
            body = [{"name": name(w).hex(), "operands": [[str(o), str(n)] for o, n in os_], "proof": bool(p)} for w, os_, p in instructions]
            print(json.dumps({"contract": contract.hex(), "instructions": body, "length": length, "head": head(contract, instructions, length).hex()}))
        return
    here = os.path.dirname(os.path.abspath(__file__))
    with open(os.path.join(here, "stdin"), "wb") as stdin, open(os.path.join(here, "stdout"), "w") as stdout:
        for case in cases():
            stdin.write(u64(len(case)) + case)
            stdout.write(line(case) + "\n")


main()
