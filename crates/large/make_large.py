#!/usr/bin/env python3
"""Makes `stdin` and `stdout`: one program on a host of 1 MiB sectors (M-103), two of disk and two of stage, with 65,536 bytes of output, in the
form in which `depot` reads it. It grows to two sectors, writes in both of them, also across edges of 4,096 bytes and at the ends of a sector,
copies and swaps from one sector to the other, and reads, some of it with proofs. `stdout` is what the model makes of it; before it is written,
the bytes read, the roots and the proofs are compared with what Python works out from the bytes themselves. `model/run check` builds the model."""
import hashlib, pathlib, struct, subprocess

here = pathlib.Path(__file__).parent
model = here.parent.parent / "target" / "model" / "model"
SECTOR = 1_048_576
PRICES = 7, 1, 3, 2, 5, 4, 6

def number(*ns):
    return struct.pack(f"<{len(ns)}Q", *ns)

def digest(message):
    return hashlib.blake2b(message, digest_size=32).digest()

def text(n, start):
    """Bytes that differ from place to place."""
    return bytes((start + 7 * i + i // 251) % 256 for i in range(n))

def grow(sectors):
    return b"Truncate", [number(SECTOR * sectors)], False

def write(at, b):
    return b"Write", [number(at), number(len(b)) + b], False

def copy(to, at, n):
    return b"Copy", [number(to), number(at), number(n)], False

def swap(at, to, n):
    return b"Swap", [number(at), number(to), number(n)], False

def read(at, n, proof=False):
    return b"Read", [CONTRACT, number(at), number(n)], proof

CONTRACT = bytes(range(1, 33))
OTHER = bytes(range(33, 65))
STEPS = [
    grow(1),
    write(0, text(64, 1)),
    write(4_096 - 37, text(100, 20)),
    write(524_288 - 64, text(128, 33)),
    write(SECTOR - 200, text(200, 90)),
    read(4_000, 200),
    grow(2),
    write(SECTOR, text(65, 50)),
    write(SECTOR + 700_000, text(150, 77)),
    write(2 * SECTOR - 64, text(64, 11)),
    # from one sector to the other
    copy(SECTOR + 8_192 - 60, 4_096 - 50, 120),
    swap(100, SECTOR + 12_288 - 80, 160),
    swap(SECTOR + 699_990, 524_288 - 70, 140),
    # in one sector, overlapping
    copy(SECTOR - 180, SECTOR - 200, 180),
    swap(5, 40, 60),
    # across an edge of 4,096, with a proof; in each sector, and at their ends
    read(4_096 - 2_048, 4_096, True),
    read(SECTOR + 8_192 - 1_024, 4_096, True),
    read(SECTOR - 4_096, 4_096, True),
    read(SECTOR, 64, True),
    read(2 * SECTOR - 4_096, 4_096),
    read(699_999, 333),
]

def given():
    head, data = b"", b""
    for name, inputs, proof in STEPS:
        head += name.ljust(16, b"\0") + number(len(inputs))
        for one in inputs:
            head += number(len(data), len(one))
            data += one
        head += b"\1" if proof else b"\0"
    head = CONTRACT + number(len(STEPS)) + head + number(len(data))
    return number(7, *PRICES, 10**9, 2) + OTHER + CONTRACT + number(len(head)) + head + data, len(data)

def root(b):
    """The root of segments whose number is a power of two, or none."""
    if not b:
        return bytes(32)
    level = [digest(b"\0" + b[at : at + 64]) for at in range(0, len(b), 64)]
    while len(level) > 1:
        level = [digest(b"\1" + level[i] + level[i + 1]) for i in range(0, len(level), 2)]
    return level[0]

def proof(b, at, first, end):
    """The walk over a part that starts at the segment `at`."""
    count = len(b) // 64
    if at + count <= first or end <= at:
        return root(b)
    if first <= at and at + count <= end:
        return b""
    half = len(b) // 2
    return proof(b[:half], at, first, end) + proof(b[half:], at + count // 2, first, end)

def expected(declared):
    """The records as document 01 gives them, from one row of bytes."""
    area, out = bytearray(), b""
    times = {b"Read": 10, b"Write": 20, b"Copy": 20, b"Swap": 30, b"Truncate": 5}
    init, memory, read_base, read_length, write_base, write_length, truncate_base = PRICES
    for name, inputs, asked in STEPS:
        shown, hashes = b"", b""
        cost = (1_048_576 + declared) * times[name] * memory
        numbers = [struct.unpack("<Q", one)[0] for one in inputs if len(one) == 8]
        if name == b"Truncate":
            area.extend(bytes(numbers[0] - len(area)))
            cost += truncate_base
        elif name == b"Write":
            area[numbers[0] : numbers[0] + len(inputs[1]) - 8] = inputs[1][8:]
            cost += write_base + write_length * (len(inputs[1]) - 8)
        elif name == b"Copy":
            to, at, n = numbers
            area[to : to + n] = bytes(area[at : at + n])
            cost += read_base + read_length * n + write_base + write_length * n
        elif name == b"Swap":
            one, two, n = numbers
            first, second = bytes(area[one : one + n]), bytes(area[two : two + n])
            area[two : two + n] = first
            area[one : one + n] = second
            cost += 2 * (read_base + read_length * n + write_base + write_length * n)
        else:
            at, n = numbers
            shown = bytes(area[at : at + n])
            cost += read_base + read_length * n
            if asked:
                hashes = proof(bytes(area), 0, at // 64, (at + n) // 64)
        out += number(0, cost, len(area)) + root(bytes(area)) + number(len(hashes) // 32) + hashes + number(len(shown)) + shown
    return out

stdin, declared = given()
stdout = subprocess.run([model, "large"], input=stdin, capture_output=True, check=True).stdout
assert stdout == expected(declared), "the model and this script differ"
here.joinpath("stdin").write_bytes(stdin)
here.joinpath("stdout").write_bytes(stdout)
print(len(stdin), "bytes given,", len(stdout), "bytes of", len(STEPS), "records")
