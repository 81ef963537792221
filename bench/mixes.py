#!/usr/bin/env python3
"""bench/mixes.py: mixes of instructions, the proved program `mixes` beside the Rust model.

use: bench/mixes.py PROVED MODEL            measures, and prints the table
     bench/mixes.py programs ONE OTHER      the same of two programs `mixes`, such as one of before a change and one of after it
     bench/mixes.py input MIX SECTORS N     one input to standard output, its measured visit N times (of "empty pieces", N pieces)
     bench/mixes.py example                 the input of crates/mixes/stdin

Heads and data are document 01's encoding. See docs/BENCH.md. TURNS in the environment sets how many turns there are.
"""
import os
import sys

SECTOR = 4096
STAGE = 16
ID = bytes(range(1, 33))
BUDGET = 1 << 62
PRICES = [1] * 7
# The seconds that the measured visits of a run are made to take. Many short turns find a quiet moment sooner than few long ones.
SECONDS = 0.4
TURNS = int(os.environ.get("TURNS", "15"))


def number(n):
    return n.to_bytes(8, "little")


class Visit:
    """A program: its instructions, and the data that their operands name."""

    def __init__(self):
        self.instructions = []
        self.data = b""

    def add(self, name, *inputs, proof=False):
        operands = b""
        for part in inputs:
            operands += number(len(self.data)) + number(len(part))
            self.data += part
        self.instructions.append(name.encode().ljust(16, b"\0") + number(len(inputs)) + operands + bytes([proof]))

    def truncate(self, size):
        self.add("Truncate", number(size))

    def write(self, offset, data):
        self.add("Write", number(offset), number(len(data)) + data)

    def read(self, offset, length, proof):
        self.add("Read", ID, number(offset), number(length), proof=proof)

    def copy(self, destination, source, size):
        self.add("Copy", number(destination), number(source), number(size))

    def swap(self, first, second, size):
        self.add("Swap", number(first), number(second), number(size))

    def head(self):
        assert len(self.instructions) <= 32 and len(self.data) <= 65536
        return ID + number(len(self.instructions)) + b"".join(self.instructions) + number(len(self.data))

    def encoded(self, times, empty=0):
        """So many times, each after a program under the same head that is given so many empty pieces."""
        head = self.head()
        return number(times) + number(empty) + number(len(head)) + head + number(len(self.data)) + self.data


def filler(seed, length):
    """Bytes that differ from place to place."""
    return bytes((seed * 131 + i * 7 + i // 251) % 256 for i in range(length))


def growing(sectors):
    """The visits that make a contract of so many sectors, each sector grown and then filled: 15 a visit, by the limit on data."""
    visits = []
    for first in range(0, sectors, 15):
        visit = Visit()
        for position in range(first, min(first + 15, sectors)):
            visit.truncate((position + 1) * SECTOR)
            visit.write(position * SECTOR, filler(position, SECTOR))
        visits.append(visit)
    return visits


def spread(sectors):
    """The positions that a visit writes to: no more than the stage has slots, spread over the contract."""
    n = min(sectors, STAGE)
    return [i * sectors // n for i in range(n)]


def writes(sectors):
    """32 Writes of 64 bytes at different places."""
    visit, positions = Visit(), spread(sectors)
    for i in range(32):
        at = positions[i % len(positions)] * SECTOR + i * 125 % (SECTOR - 64)
        visit.write(at, filler(i, 64))
    return visit


def reads(sectors):
    """14 Reads of a whole sector with its proof: what the output area holds."""
    visit = Visit()
    for i in range(14):
        visit.read((i * 5 + 3) % sectors * SECTOR, SECTOR, True)
    return visit


def copies_and_swaps(sectors):
    """16 Copies and 16 Swaps of 64 to 4,096 bytes: by turns within one sector and between two (of one sector: all within)."""
    visit, positions = Visit(), spread(sectors)
    n = len(positions)
    for i in range(16):
        size = [64, 256, 1024, 4096][i % 4]
        one = positions[i % n]
        two = positions[(i + 3) % n] if i // 4 % 2 else one
        room = SECTOR - size
        first = one * SECTOR + min(i * 17, room)
        second = two * SECTOR + min(i * 29 + 1500, room)
        visit.copy(first, second, size)
        visit.swap(second, first, size)
    return visit


def short_reads(sectors):
    """32 Reads of 64 bytes without a proof, at different places."""
    visit = Visit()
    for i in range(32):
        visit.read((i * 5 + 3) % sectors * SECTOR + i * 125 % (SECTOR - 64), 64, False)
    return visit


def one_write(sectors):
    """One Write: an empty piece finds it waiting for its data."""
    visit = Visit()
    visit.write((sectors - 1) * SECTOR, filler(1, 64))
    return visit


EMPTY = "empty pieces"
MIXES = {"writes": writes, "reads": reads, "short reads": short_reads, "copies and swaps": copies_and_swaps, EMPTY: one_write}


def grown(sectors):
    """The front of an input, with a contract of so many sectors."""
    front = ID + number(BUDGET) + b"".join(map(number, PRICES))
    return front + b"".join(visit.encoded(1) for visit in growing(sectors))


def made(name, sectors, times):
    """The whole input, with the measured visit so many times; with none the visit is left out. Empty pieces: one visit after so many."""
    visit = MIXES[name](sectors)
    if name == EMPTY:
        return grown(sectors) + visit.encoded(1, times)
    return grown(sectors) + (visit.encoded(times) if times else b"")


def units(name, sectors):
    """What a time is divided by: the instructions of a visit; of empty pieces each one is a unit."""
    return 1 if name == EMPTY else len(MIXES[name](sectors).instructions)


def example():
    """Every instruction but ReadSector in two sectors, twice; a visit whose last instruction fails; one more, after three empty pieces."""
    mixed, failing = Visit(), Visit()
    mixed.write(100, filler(9, 64))
    mixed.copy(4096, 100, 64)
    mixed.swap(4160, 0, 1024)
    mixed.read(4096, 4096, True)
    mixed.truncate(8192)
    failing.write(0, filler(3, 64))
    failing.read(4090, 7, False)
    return grown(2) + mixed.encoded(2) + failing.encoded(1) + mixed.encoded(1, 3)


def run(command, environment, path):
    """Processor time of one run in seconds, and what it wrote."""
    with open(path, "rb") as source:
        r, w = os.pipe()
        pid = os.posix_spawn(
            command[0],
            command,
            environment,
            file_actions=[
                (os.POSIX_SPAWN_DUP2, source.fileno(), 0),
                (os.POSIX_SPAWN_DUP2, w, 1),
                (os.POSIX_SPAWN_CLOSE, r),
            ],
        )
        os.close(w)
        with os.fdopen(r, "rb") as pipe:
            wrote = pipe.read()
        _, status, used = os.wait4(pid, 0)
    if status != 0:
        sys.exit(f"bench: {command[0]} ended with status {status} on {path}")
    return used.ru_utime + used.ru_stime, wrote


class Side:
    """One of the two programs."""

    def __init__(self, *command, **extra):
        self.command, self.environment = list(command), dict(os.environ, **extra)

    def seconds(self, name, sectors, times):
        return run(self.command, self.environment, stored(name, sectors, times))[0]

    def enough(self, name, sectors):
        """How often the measured visit is done so that a run takes SECONDS more than without it."""
        times, base = 1, self.seconds(name, sectors, 0)
        while True:
            took = self.seconds(name, sectors, times) - base
            if SECONDS / 8 <= took:
                return max(1, round(times * SECONDS / took))
            times *= 8


def stored(name, sectors, times):
    """Where an input stands."""
    path = f"target/bench/mixes/{name.replace(' ', '-')}-{sectors}-{times}"
    if not os.path.exists(path):
        with open(path, "wb") as target:
            target.write(made(name, sectors, times))
    return path


def compare(sides, name, sectors):
    """Stops where the two do not write the same for a few visits."""
    wrote = [run(side.command, side.environment, stored(name, sectors, 3))[1] for side in sides]
    if wrote[0] != wrote[1] or b" refused " in wrote[0] or not wrote[0].startswith(b"visits "):
        sys.exit(f"bench: on {name} in {sectors} sectors the programs wrote\n{wrote[0].decode()}{wrote[1].decode()}")


def least(sides, name, sectors):
    """For each side the least time of several turns of an instruction, in seconds, less that of the same input without it. The sides take turns."""
    times = [side.enough(name, sectors) for side in sides]
    found = [[float("inf")] * 2 for _ in sides]
    for _ in range(TURNS):
        for i, side in enumerate(sides):
            for j, n in enumerate((0, times[i])):
                found[i][j] = min(found[i][j], side.seconds(name, sectors, n))
    return [(with_it - without) / n / units(name, sectors) for (without, with_it), n in zip(found, times)]


def load():
    return " ".join(f"{x:.2f}" for x in os.getloadavg())


def measure(names, sides):
    os.makedirs("target/bench/mixes", exist_ok=True)
    for old in os.listdir("target/bench/mixes"):
        os.remove(f"target/bench/mixes/{old}")
    print(f"load at the start: {load()} on {os.cpu_count()} cores")
    print("processor time an instruction or an empty piece, in microseconds, the least of", TURNS, "turns")
    print(f"{'mix':<18} {'sectors':>7} {'a visit':>8} {names[0]:>9} {names[1]:>9} {'ratio':>6}")
    table = {}
    for name in MIXES:
        for sectors in (1, 8, 64):
            compare(sides, name, sectors)
            a, b = table[name, sectors] = [seconds * 1e6 for seconds in least(sides, name, sectors)]
            print(f"{name:<18} {sectors:>7} {units(name, sectors):>8} {a:>9.2f} {b:>9.2f} {a / b:>6.2f}", flush=True)
    for name in MIXES:
        (a, b), (c, d) = table[name, 1], table[name, 64]
        print(f"{name}, 64 sectors to 1: {names[0]} {c / a:.2f}, {names[1]} {d / b:.2f}")
    print(f"load at the end: {load()}")


def main():
    words = sys.argv[1:]
    if len(words) == 4 and words[0] == "input":
        sys.stdout.buffer.write(made(words[1], int(words[2]), int(words[3])))
    elif words == ["example"]:
        sys.stdout.buffer.write(example())
    elif len(words) == 3 and words[0] == "programs":
        measure(["one", "other"], [Side(words[1]), Side(words[2])])
    elif len(words) == 2:
        measure(["proved", "Rust"], [Side(words[0]), Side(words[1], "mixes", MODEL_PLAIN="1")])
    else:
        sys.exit(__doc__)


if __name__ == "__main__":
    main()
