#!/usr/bin/env python3
"""Makes `stdin` and `stdout`. The script: a host of 8 sectors, a contract, a program that grows it by a sector and writes to it, given in two
pieces, what it has reached, and the agreement to that; then a program that writes the same bytes again, so that it closes with 0 though its
agreement names another pair. Then sector sizes and lengths that are refused, and a host of sectors of 8,192 bytes: a contract that is grown,
written across the edge at 4,096 and read there with a proof, and committed; the proof for the checker, as it is and changed; a sector size put
into the host's record, with the program open and after it; and a proof among 4,194,304 segments,
and one among one more, which no proof covers. At last a host of a contract of two sectors, and whether it is sound: with a byte of the second's kept root changed it is not,
and records, proofs, the look-up and the agreement follow from that root; a Write of equal bytes and its commit heal it. Then the same of a staged
sector, which the next Write heals. Last, where roots are: with no program open, then in one that writes to a sector, reads it back by its root with a proof, and grows
by a sector: what it has written is in the stage, and what it has written over is not found until it is given up; and on a host out of order. `stdout` is what the model makes of it.
`model/run check` builds the model."""
import hashlib, pathlib, struct, subprocess

here = pathlib.Path(__file__).parent
model = here.parent.parent / "target" / "model" / "model"

def number(*ns):
    return struct.pack(f"<{len(ns)}Q", *ns)

def digest(message):
    return hashlib.blake2b(message, digest_size=32).digest()

def parts(b):
    return [b[i : i + 64] for i in range(0, len(b), 64)]

def root(parts):
    if len(parts) == 1:
        return digest(b"\0" + parts[0])
    k = 1
    while 2 * k < len(parts):
        k *= 2
    return digest(b"\1" + root(parts[:k]) + root(parts[k:]))

def proof(parts, at, first, end):
    if at + len(parts) <= first or end <= at:
        return root(parts)
    if first <= at and at + len(parts) <= end:
        return b""
    k = 1
    while 2 * k < len(parts):
        k *= 2
    return proof(parts[:k], at, first, end) + proof(parts[k:], at + k, first, end)

def instruction(name, *operands, proof=b"\0"):
    return name.ljust(16, b"\0") + number(len(operands)) + b"".join(number(*o) for o in operands) + proof

disk, stage, room = 8 * 4096, 4 * 4096, 16384
contract = bytes(range(1, 33))
written = bytes(range(64))
again = number(100) + number(64) + written
data = number(4096) + again
head = contract + number(2) + instruction(b"Truncate", (0, 8)) + instruction(b"Write", (8, 8), (16, 72)) + number(len(data))
second = contract + number(1) + instruction(b"Write", (0, 8), (8, 72)) + number(len(again))
sector = bytes(100) + written + bytes(4096 - 164)
final = root(parts(sector))

def opened(head):
    return b"o" + number(room, 10**9, 7, 1, 3, 2, 5, 4, 6, len(head)) + head

def piece(b, declared):
    return b"p" + number(disk, stage, len(declared), room, len(b)) + b

script = (b"F" + number(disk, stage) + b"\xaa"
    + b"f" + contract
    + opened(head) + piece(data[:50], data) + piece(data[50:], data)
    + b"r" + number(disk, stage)
    + b"a" + number(disk, stage, 4096) + final
    + opened(second) + piece(again, again)
    + b"a" + number(disk, stage, 0) + bytes(32))

# sectors of 8,192 bytes
disk, stage = 4 * 8192, 2 * 8192

def fresh(*ns):
    return b"N" + number(*ns) + b"\x33"

def size(value):
    return b"x" + number(25, 0, 0, value)

def check(root, count, first, end, b, hashes):
    return b"k" + root + number(count, first, end, len(b), len(b) + len(hashes)) + b + hashes

sector = bytes(4070) + written + bytes(8192 - 4134)
final = root(parts(sector))
data = number(8192) + number(4070) + number(64) + written + contract + number(4032) + number(128)
head = (contract + number(3) + instruction(b"Truncate", (0, 8)) + instruction(b"Write", (8, 8), (16, 72))
    + instruction(b"Read", (88, 32), (120, 8), (128, 8), proof=b"\1") + number(len(data)))
wrong = number(4096)
wrong_head = contract + number(1) + instruction(b"Truncate", (0, 8)) + number(len(wrong))
given, hashes = sector[4032:4160], proof(parts(sector), 0, 63, 65)
reached = b"r" + number(disk, stage)

# among 4,194,304 segments that are all alike: a hash a level
alike, levels = written, [digest(b"\0" + written)]
for _ in range(22):
    levels.append(digest(b"\1" + 2 * levels[-1]))

script += (fresh(6144, 4 * 6144, 6144) + fresh(2048, 8192, 4096) + fresh(8_388_608, 8_388_608, 8_388_608) + fresh(8192, 12288, 8192)
    + reached
    + fresh(4_194_304, 64 * 4_194_304, 16 * 4_194_304) + reached
    + fresh(8192, disk, stage) + b"f" + contract
    + opened(wrong_head) + piece(wrong, wrong) + b"g" + number(disk, stage)
    + opened(head) + piece(data[:88], data) + size(2048) + piece(data[88:], data) + size(8192) + piece(data[88:], data)
    + b"r" + number(4 * 4096, 2 * 4096) + reached
    + b"a" + number(disk, stage, 8192) + final
    + check(final, 128, 63, 65, given, hashes)
    + check(final, 128, 62, 64, given, hashes)
    + check(final, 128, 63, 65, given, hashes + bytes(32))
    + check(final, 64, 63, 65, given, hashes)
    + size(0) + reached + size(4096) + reached + size(8192) + reached
    + check(levels[22], 4_194_304, 0, 1, alike, b"".join(levels[:22]))
    + check(digest(b"\1" + levels[22] + levels[0]), 4_194_305, 4_194_304, 4_194_305, alike, levels[22]))

# kept roots
disk, stage = 8 * 4096, 4 * 4096

def program(*steps):
    """A program's opening, and its data; a name that ends with a star asks for a proof."""
    data, head = b"", b""
    for name, *inputs in steps:
        operands = [(len(data) + sum(map(len, inputs[:i])), len(b)) for i, b in enumerate(inputs)]
        head += instruction(name.rstrip(b"*"), *operands, proof=bytes([name.endswith(b"*")]))
        data += b"".join(inputs)
    return opened(contract + number(len(steps)) + head + number(len(data))), data

def played(*steps):
    start, data = program(*steps)
    return start + piece(data, data)

def write(at, b):
    return b"Write", number(at), number(len(b)) + b

def kept(field, slot, j, value):
    return b"x" + number(field, slot, j, value)

def named(hash):
    return b"a" + number(disk, stage, 8192) + hash

node = lambda left, right: digest(b"\1" + left + right)
sound, reached, give_up = (kind + number(disk, stage) for kind in (b"s", b"r", b"g"))
sectors = [b"crisps".ljust(4096, b"\0"), b"raisins".ljust(4096, b"\0")]
one, two = (root(parts(b)) for b in sectors)
wrong = two[:31] + bytes([two[31] ^ 1])
reads = [(b"Read*", contract, number(at), number(64)) for at in (64, 4160)] + [(b"ReadSector*", wrong, number(0), number(64))]
changed = root(parts(b"Crisps".ljust(4096, b"\0")))
start, data = program(write(4096, b"Raisins"), write(4103, b"!"))
half, whole = (root(parts(b.ljust(4096, b"\0"))) for b in (b"Raisins", b"Raisins!"))

script += (b"F" + number(disk, stage) + b"\x11" + sound + b"f" + contract + b"s" + number(disk, stage - 1) + b"s" + number(4096, stage)
    + played((b"Truncate", number(4096)), (b"Truncate", number(8192)), write(0, b"crisps"), write(4096, b"raisins")) + sound
    + named(node(one, two)) + sound
    + kept(26, 63, 31, 255) + kept(27, 15, 31, 255) + kept(26, 2, 0, 1) + sound
    + kept(26, 1, 31, wrong[31]) + sound
    + played(*reads) + reached + named(node(one, two))
    + played((b"ReadSector", two, number(0), number(7))) + reached + give_up
    + played(write(0, b"C")) + reached + named(node(changed, two))
    + played(write(4096, b"raisins")) + sound + reached + named(node(one, two)) + sound
    + start + piece(data[:23], data) + sound + kept(27, 0, 0, half[0] ^ 128) + sound + reached
    + piece(data[23:], data) + sound + reached + named(node(one, whole)) + sound)

# where roots are
def locate(*roots):
    return b"".join(b"l" + root for root in roots)

zeros = root(parts(bytes(4096)))
asked = locate(one, whole, changed, zeros, wrong)
start, data = program(write(0, b"C"), (b"ReadSector*", changed, number(0), number(64)), (b"Truncate", number(12288)), (b"ReadSector", one, number(0), number(6)))
script += (asked + start + asked + piece(data[:17], data) + asked + piece(data[17:], data) + reached + asked + give_up + asked
    + size(6144) + locate(one) + size(4096) + locate(one))
here.joinpath("stdin").write_bytes(script)
here.joinpath("stdout").write_bytes(subprocess.run([model, "calls"], input=script, capture_output=True, check=True).stdout)
