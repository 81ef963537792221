#!/usr/bin/env python3
"""bench/sectors.py: programs on sectors of 4 MiB, the proved library (behind bench/sectors.rs) beside the Rust model on the same input.

use: bench/sectors.py PROVED MODEL     compares what both write, measures, and prints the table

PROVED and `MODEL once` read the same input: sector size, sectors of disk and of stage, then what document 01's test program reads. See
docs/BENCH.md.
"""
import os
import subprocess
import sys
import time

sys.dont_write_bytecode = True
from mixes import BUDGET, ID, PRICES, Visit, filler, number, run

SECTOR = 4_194_304
DISK = 64
STAGE = 16
# Prices that differ, so that one in another's place shows: for what is only compared. What is measured has those of the mixes.
DIFFERENT = [65_535, 3, 257, 11, 4_099, 13, 31]
READ_ONLY = b"ReadOnly".ljust(32, b"\0")

# Sectors of the contract, instructions that are measured, turns. A root of 16 sectors takes half a second, and growing to them 8.5 such roots, so
# there are few turns of those.
SIZES = [(1, 12, 6), (4, 8, 4), (16, 8, 2)]
DIRECTORY = "target/bench/sectors"


def made(visit, sector=SECTOR, disk=DISK, stage=STAGE, prices=PRICES, budget=BUDGET, ids=(ID,), head=None, data=None):
    """A whole input; with another head or other data, if they are given, than the program has."""
    head = visit.head() if head is None else head
    words = [sector, disk, stage, len(prices), *prices, budget, len(ids)]
    return b"".join(map(number, words)) + b"".join(ids) + number(len(head)) + head + (visit.data if data is None else data)


def grown(sectors):
    """A program that grows an empty contract to so many sectors, one at a time, as 26 asks."""
    visit = Visit()
    for i in range(sectors):
        visit.truncate((i + 1) * SECTOR)
    return visit


def three():
    """Three sectors: every instruction but ReadSector, across edges of 4,096 bytes, at the ends of sectors, from one sector to another."""
    s, visit = SECTOR, grown(1)
    visit.write(0, filler(1, 64))
    visit.write(4_096 - 37, filler(2, 100))
    visit.write(s // 2 - 1, filler(3, 2))
    visit.write(s - 200, filler(4, 200))
    visit.truncate(2 * s)
    visit.write(s, filler(5, 65))
    visit.write(s + 611 * 4_096 - 4_000, filler(6, 10_000))
    visit.truncate(3 * s)
    visit.write(3 * s - 64, filler(7, 64))
    # from one sector to another, across edges of 4,096
    visit.copy(s + 8_192 - 60, 4_096 - 50, 120)
    visit.copy(2 * s, s - 200, 200)
    visit.swap(100, 2 * s + 12_288 - 80, 160)
    visit.swap(s + 610 * 4_096, s - 9_000, 9_000)
    # overlapping; a sector's last bytes onto another's
    visit.copy(s - 180, s - 200, 180)
    visit.swap(2 * s + 5, 2 * s + 40, 60)
    visit.copy(2 * s - 1, 3 * s - 1, 1)
    # whole sectors
    visit.swap(s, 2 * s, s)
    visit.copy(0, s, s)
    visit.read(4_000, 200, False)
    visit.read(699_999, 333, False)
    visit.read(2_048, 4_096, True)
    visit.read(s - 4_096, 4_096, True)
    visit.read(s, 64, True)
    visit.read(2 * s + 610 * 4_096, 8_192, True)
    visit.read(3 * s - 4_096, 4_096, True)
    # a sector that is dropped and grown again is zeros
    visit.truncate(2 * s)
    visit.truncate(3 * s)
    visit.read(2 * s, 8_192, True)
    return visit


def sixteen():
    """The largest contract that a program can make from a fresh host: growing takes a slot of the stage for each sector."""
    s, visit = SECTOR, grown(STAGE)
    visit.write(s - 100, filler(8, 100))
    visit.write(16 * s - 64, filler(9, 64))
    visit.copy(7 * s + 4_095, 16 * s - 64, 64)
    visit.swap(0, 15 * s, s)
    visit.read(0, 64, True)
    visit.read(s - 4_096, 4_096, True)
    visit.read(16 * s - 4_096, 4_096, True)
    return visit


def then(visit, name, *words):
    """A program with one more instruction."""
    getattr(visit, name)(*words)
    return visit


def compared():
    """What is compared: a name, an input, and how it must end, so that it is seen to do what it is meant to: with a size agreed to, with the
    number of a failure's record, or with that of a refusal."""
    s, one = SECTOR, grown(1)
    init = DIFFERENT[0]
    yield "3 sectors", made(three(), prices=DIFFERENT), ("size", 3 * s)
    yield "16 sectors", made(sixteen(), prices=DIFFERENT), ("size", 16 * s)
    yield "a 17th sector", made(grown(17)), ("record", 40)
    yield "no instructions", made(Visit()), ("size", 0)
    for name, visit in [
        ("Truncate by 4,096", then(Visit(), "truncate", 4_096)),
        ("Truncate by two sectors", then(Visit(), "truncate", 2 * s)),
        ("Write past the end", then(grown(1), "write", s - 63, filler(1, 64))),
        ("Write across a sector's edge", then(grown(2), "write", s - 32, filler(1, 64))),
        ("Copy across a sector's edge", then(grown(2), "copy", 1, 0, s)),
        ("Read across a sector's edge", then(grown(2), "read", s - 64, 128, True)),
    ]:
        yield name, made(visit), ("record", 26)
    cost = (1_048_576 + 8) * 5 * DIFFERENT[1] + DIFFERENT[6]
    yield "a budget that suffices", made(one, prices=DIFFERENT, budget=init + cost), ("size", s)
    yield "one less", made(one, prices=DIFFERENT, budget=init + cost - 1), ("record", 28)
    for name, given, answer in [
        ("a sector of 8 MiB", made(one, sector=2 * s), 2),
        ("a sector of 3 MiB", made(one, sector=3 << 20), 2),
        ("a sector of 2,048", made(one, sector=2_048), 2),
        ("65 sectors of disk", made(one, disk=65), 2),
        ("17 sectors of stage", made(one, stage=17), 2),
        ("no disk", made(one, disk=0), 2),
        ("a disk of 2^64 bytes", made(one, disk=1 << 42), 2),
        ("the ReadOnly word as id", made(one, ids=(READ_ONLY,)), 5),
        ("an id twice", made(one, ids=(ID, ID)), 6),
        ("no contract", made(one, ids=()), 7),
        ("nine contracts", made(one, ids=[bytes([i]) * 32 for i in range(1, 10)]), 8),
        ("nothing", b"", 9),
        ("an input that ends in the head", made(one, data=b"")[:-1], 9),
        ("a head that is too short", made(one, head=one.head()[:-1]), 9),
        ("six prices", made(one, prices=PRICES[:6]), 9),
        ("a price of 65,536", made(one, prices=PRICES[:6] + [65_536]), 9),
        ("33 instructions", made(one, head=ID + number(33)), 10),
        ("a budget below Init", made(one, prices=DIFFERENT, budget=init - 1), 11),
        ("a byte of data too many", made(one, data=one.data + b"\0"), 12),
        ("a byte of data missing", made(one, data=one.data[:-1]), 13),
        ("an id padded with zeros", made(one, ids=(b"\1".ljust(32, b"\0"),)), 15),
    ]:
        yield name, given, ("refusal", answer)


def end(wrote):
    """How a program ended, by what was written: as `compared` says it."""
    word = lambda at: int.from_bytes(wrote[at : at + 8], "little")
    if len(wrote) == 8:
        return "refusal", word(0)
    at = last = 0
    while len(wrote) - at >= 72:
        last = word(at)
        at += 64 + 32 * word(at + 56)
        at += 8 + word(at)
    return {0: ("record", last), 40: ("size", word(at))}.get(len(wrote) - at, ("bytes left over", len(wrote) - at))


def stored(name, given):
    path = f"{DIRECTORY}/{name.replace(' ', '-').replace(',', '')}"
    with open(path, "wb") as target:
        target.write(given)
    return path


def both(rivals, path, wanted):
    """The processor time of each on an input; they must write the same bytes, and the program must end as it is meant to."""
    times, wrote = zip(*(run(command, environment, path) for command, environment in rivals))
    if wrote[0] != wrote[1]:
        places = [i for i in range(max(map(len, wrote))) if wrote[0][i : i + 1] != wrote[1][i : i + 1]]
        sys.exit(
            f"bench: on {path} the proved library ({len(wrote[0])} bytes, {end(wrote[0])}) and the model ({len(wrote[1])} bytes, {end(wrote[1])})"
            f" differ, first at byte {places[0]}"
        )
    if end(wrote[0]) != wanted:
        sys.exit(f"bench: on {path} both end with {end(wrote[0])} and not with {wanted}")
    return times, len(wrote[0])


def compare(rivals):
    print("what both write, compared:")
    kinds = {}
    for name, given, wanted in compared():
        _, length = both(rivals, stored(name, given), wanted)
        if wanted[0] == "size" and wanted[1] > SECTOR:
            print(f"    {name}: {length} bytes, the same", flush=True)
        else:
            kinds.setdefault(wanted[0], []).append(name)
    for kind, title in ("size", "short programs"), ("record", "programs that fail"), ("refusal", "refusals"):
        print(f"    {title} ({len(kinds[kind])}), the same: {'; '.join(kinds[kind])}")


def writes(sectors, count):
    """Growing, then so many Writes of 64 bytes at different places."""
    visit = grown(sectors)
    for i in range(count):
        visit.write(i * 5 % sectors * SECTOR + i * 300_007 % (SECTOR - 64), filler(i, 64))
    return visit


def reads(sectors, count):
    """Growing, then so many Reads of 4,096 bytes, each with its proof, at different places."""
    visit = grown(sectors)
    for i in range(count):
        visit.read((i * 5 + 3) % sectors * SECTOR + i * 77 % 1_024 * 4_096, 4_096, True)
    return visit


def measure(rivals):
    print("processor time an instruction, in milliseconds: the least of some turns, less that of the program without those instructions")
    print(f"{'one instruction':<36} {'sectors':>7} {'instructions':>12} {'turns':>5} {'proved':>9} {'Rust model':>10} {'ratio':>6}")
    for sectors, count, turns in SIZES:
        size = "size", sectors * SECTOR
        programs = grown(sectors), writes(sectors, count), reads(sectors, count)
        paths = [stored(f"{name} {sectors}", made(visit)) for name, visit in zip(("grown", "writes", "reads"), programs)]
        least = [[float("inf")] * 2 for _ in paths]
        for _ in range(turns):
            for i, path in enumerate(paths):
                times, _ = both(rivals, path, size)
                least[i] = [min(old, new) for old, new in zip(least[i], times)]
        for name, whole in ("Write of 64 bytes", least[1]), ("Read of 4,096 bytes, with its proof", least[2]):
            a, b = ((with_it - without) / count * 1e3 for with_it, without in zip(whole, least[0]))
            print(f"{name:<36} {sectors:>7} {count:>12} {turns:>5} {a:>9.2f} {b:>10.2f} {a / b:>6.3f}", flush=True)


def processor():
    """The processor's name, where lscpu says it."""
    try:
        said = subprocess.run(["lscpu"], capture_output=True, text=True, env=dict(os.environ, LC_ALL="C")).stdout
    except OSError:
        said = ""
    names = [line.split(":", 1)[1].strip() for line in said.splitlines() if line.startswith("Model name:")]
    return f"{names[0] if names else 'a processor without a name'}, {os.uname().machine}, {os.cpu_count()} cores"


def load():
    return " ".join(f"{x:.2f}" for x in os.getloadavg())


def main():
    if len(sys.argv) != 3:
        sys.exit(__doc__)
    proved, model = sys.argv[1:]
    ours, quick = ([proved], dict(os.environ)), ([model, "once"], dict(os.environ))
    # Where times are taken, the model remembers no roots of equal bytes.
    plain = quick[0], dict(os.environ, MODEL_PLAIN="1")
    os.makedirs(DIRECTORY, exist_ok=True)
    began = time.monotonic()
    print(f"{processor()}; load at the start: {load()}")
    print(f"sectors of {SECTOR} bytes, {DISK} of disk, {STAGE} of stage")
    print(f"'proved' is the proved library, linked by {proved}; 'Rust model' is MODEL_PLAIN=1 {model} once")
    compare([ours, quick])
    measure([ours, plain])
    print(f"load at the end: {load()}; {time.monotonic() - began:.0f} s in all")


main()
