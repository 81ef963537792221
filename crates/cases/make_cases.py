#!/usr/bin/env python3
"""Makes `stdin` and `stdout`. The cases are inputs that the model's generator makes, chosen so that all is reached that it can reach, and
inputs at the edges of what each program reads; the lines are the model's. `model/run check` builds the model."""
import hashlib, pathlib, struct, subprocess, tempfile

here = pathlib.Path(__file__).parent
model = here.parent.parent / "target" / "model" / "model"
SEED, MADE = 20, 8000
TIMES = 3  # each thing that can be reached is reached by so many cases, where the generator has them
SIZED_TIMES = 1  # the same for an answer or a record number on hosts of larger sectors
# inputs of the generator that notice mistakes which the others do not (model/mutants.py)
ALSO = {60, 406, 451, 496, 1081, 1317, 2513, 3197, 5097, 5242, 6494, 7073, 7453}
DEPOTS, SCRIPTS = 187, 70  # at least so many of the generator's

def number(*ns):
    return struct.pack(f"<{len(ns)}Q", *ns)

def generated():
    """Inputs of the generator: kind, bytes, what each reaches, with its kind, its place, and how many bytes the program writes."""
    with tempfile.TemporaryDirectory() as folder:
        subprocess.run([model, "gen", str(SEED), str(MADE), folder], check=True)
        data = pathlib.Path(folder, "inputs").read_bytes()
        lines = subprocess.run([model, "reach", f"{folder}/inputs"], capture_output=True, text=True, check=True).stdout.splitlines()
    at, all = 0, []
    for place, line in enumerate(lines):
        kind, length, written, *reached = line.split("\t")
        bytes_ = data[at + 9 : at + 9 + int(length)]
        at += 9 + int(length)
        if len(bytes_) <= 60_000 and int(written) <= 250_000:
            all.append((kind, bytes_, {(kind, thing) for thing in reached}, place, int(written)))
    return all

def chosen(inputs):
    """The shortest inputs that reach all (scripts also by what is written for them), then the shortest ones up to the numbers asked for, in
    the generator's order."""
    def short(i):
        return len(inputs[i][1]) + (0 if inputs[i][0] == "d" else inputs[i][4] // 8)
    order = sorted(range(len(inputs)), key=short)
    times, kept = {}, {i for i in order if inputs[i][3] in ALSO}
    for thing in sorted(set().union(*(reached for _, _, reached, *_ in inputs))):
        for i in order:
            if times.get(thing, 0) >= (SIZED_TIMES if thing[1].startswith("larger sectors: ") else TIMES):
                break
            if i not in kept and thing in inputs[i][2]:
                kept.add(i)
                for reached in inputs[i][2]:
                    times[reached] = times.get(reached, 0) + 1
    for kind, most in (("d", DEPOTS), ("c", SCRIPTS)):
        rest = [i for i in order if inputs[i][0] == kind and i not in kept]
        missing = most - sum(inputs[i][0] == kind for i in kept)
        kept.update(rest[len(rest) // 3 :][: max(missing, 0)])
    return [inputs[i][:2] for i in sorted(kept)]

def head_and_data(contract, steps):
    """A head and its data, for steps: a name and its inputs; a name that ends with a star asks for a proof."""
    data, head = b"", b""
    for name, *inputs in steps:
        head += name.rstrip(b"*").ljust(16, b"\0") + number(len(inputs))
        for one in inputs:
            head += number(len(data), len(one))
            data += one
        head += bytes([name.endswith(b"*")])
    return contract + number(len(steps)) + head + number(len(data)), data

def program(contract, formed, *steps):
    """An input of `depot` with these contracts and steps."""
    head, data = head_and_data(contract, steps)
    return number(7, 7, 1, 3, 2, 5, 4, 6, 10**9, len(formed)) + b"".join(formed) + number(len(head)) + head + data

def depots():
    """Inputs of `depot` that are cut off, or whose numbers pass what is read; and what the generator seldom meets: writing in read-only mode,
    and records that just fit, and that do not."""
    contract = bytes(range(1, 33))
    writers = (
        (b"Write", number(0), number(1) + b"a"),
        (b"Copy", *map(number, (0, 1, 1))),
        (b"Swap", *map(number, (0, 1, 1))),
        (b"Truncate", number(4096)),
    )
    yield from (program(b"ReadOnly".ljust(32, b"\0"), [contract], step) for step in writers)
    def read(n):
        return b"Read", contract, number(0), number(n)
    for n in (3592, 3593, 3664, 3665):
        filled = (b"Truncate", number(4096)), *[read(4096)] * 3, read(n)
        yield from (program(contract, [contract], *filled, step) for step in writers)
        yield program(contract, [contract], *filled, read(1))
    head = contract + number(1) + b"Truncate".ljust(16, b"\0") + number(1, 0, 8) + b"\0" + number(8)
    front = number(7, 7, 1, 3, 2, 5, 4, 6, 10**9)
    whole = front + number(1) + contract + number(len(head)) + head + number(4096)
    yield whole
    yield from (whole[:n] for n in (0, 1, 8, 63, 64, 71, 72, 79, 80, 111, 112, 119, 120, 160, 208, 209, 210, 216))
    yield from (number(count) + whole[8:] for count in (0, 6, 8, 2**64 - 1))
    yield from (whole[: 8 * k] + number(price) + whole[8 * k + 8 :] for k in (1, 7) for price in (65_535, 65_536, 2**64 - 1))
    many = [bytes([k]) * 32 for k in range(1, 13)]
    for count in (0, 8, 9, 10, 12):
        yield front + number(count) + b"".join(many[:count]) + number(len(head)) + head + number(4096)
    yield from (front + number(count) + contract + number(len(head)) + head for count in (2, 11, 2**59, 2**61, 2**64 - 1))
    for length in (len(head) - 1, len(head) + 1, 2896, 2897, 2898, 2**32, 2**64 - 1):
        yield front + number(1) + contract + number(length) + head + bytes(3000)
    yield whole + b"\0"
    for declared in (65_536, 65_537):
        long = head[:-8] + number(declared)
        yield front + number(1) + contract + number(len(long)) + long + number(4096)
    long = head[:-8] + number(65_536)
    yield from (front + number(1) + contract + number(len(long)) + long + number(4096) + bytes(n) for n in (65_528, 65_529, 66_000))

# Ids that are padded (bytes 4 to 31 zero), and ids of zeros but for one byte.
SHORT = [word.ljust(32, b"\0") for word in (b"", b"old1", b"\xff" * 4, b"Read", b"\1", b"\0\0\0\1")]
ONE = [bytes(k) + b"\1" + bytes(31 - k) for k in range(32)]
MANY = [bytes([k]) * 32 for k in range(1, 10)]
WORD = b"ReadOnly".ljust(32, b"\0")

def short_depots():
    """Inputs of `depot` that form padded ids (15), ids beside them, and those of other refusals with them."""
    grow = b"Truncate", number(4096)
    yield from (program(id, [id], grow) for id in (*SHORT, WORD, ONE[4], ONE[31]))
    yield from (program(MANY[0], [MANY[0], id], grow) for id in (*SHORT[:4], WORD, ONE[4], ONE[31]))
    yield from (program(ONE[k], ONE[k : k + 7], grow) for k in (4, 11, 18, 25))
    both = [ONE[4], ONE[31]]
    yield from (program(id, formed, grow) for id in both for formed in (both, both[::-1]))
    yield from (program(id, [MANY[0]], grow) for id in (*SHORT[:2], *both))
    yield from (program(MANY[0], formed, grow) for formed in ([WORD, SHORT[0]], [SHORT[0], WORD], [SHORT[1], SHORT[1]], both + both))
    yield from (program(MANY[0], [*formed, SHORT[1]], grow) for formed in ([MANY[0], MANY[0]], [b"old1\1".ljust(32, b"\0")]))
    yield from (program(MANY[0], MANY[:8] + [id], grow) for id in (*SHORT[:2], WORD, ONE[4], MANY[8]))
    yield program(SHORT[1], [SHORT[1]], grow)[:-1]
    yield program(SHORT[1], [SHORT[1]], grow).replace(number(10**9), number(0))

def root(b):
    """The root of a contract's bytes, of 64 a segment."""
    if len(b) <= 64:
        return hashlib.blake2b(b"\0" + b, digest_size=32).digest() if b else bytes(32)
    k = 64
    while 2 * k < len(b):
        k *= 2
    return hashlib.blake2b(b"\1" + root(b[:k]) + root(b[k:]), digest_size=32).digest()

def poke(*ns):
    return b"x" + number(*ns)

def held(place, id, *slots):
    """Pokes that put a contract under this id into a place that holds zeros, with these disk slots."""
    pokes = [(3, place, j, id[j]) for j in range(32) if id[j]] + [(5, place, j, slot) for j, slot in enumerate(slots)]
    return b"".join(poke(*ns) for ns in pokes) + (poke(4, place, 0, 4096 * len(slots)) if slots else b"") + poke(2, place, 0, 1)

# The host of the scripts below, and their items.
DISK, STAGE, ROOM = 8 * 4096, 4 * 4096, 4096
FRESH = b"F" + number(DISK, STAGE) + b"\x55"
GIVE_UP = b"g" + number(DISK, STAGE)
REACHED = b"r" + number(DISK, STAGE)

def form(*ids):
    return b"".join(b"f" + id for id in ids)

def drop(*ids):
    return b"".join(b"d" + id for id in ids)

def opened(contract, *steps):
    """The opening of a program, and all its data as one piece."""
    head, data = head_and_data(contract, steps)
    start = b"o" + number(ROOM, 10**9, 7, 1, 3, 2, 5, 4, 6, len(head)) + head
    return start, b"p" + number(DISK, STAGE, len(data), ROOM, len(data)) + data

def named(size, root):
    return b"a" + number(DISK, STAGE, size) + root

def agree(b):
    return named(len(b), root(b))

def visit(contract, after, *steps):
    """A program that ends with these bytes, what it reaches, and the agreement to that."""
    return b"".join(opened(contract, *steps)) + REACHED + agree(after)

def grow(n):
    return b"Truncate", number(4096 * n)

def write(at, b):
    return b"Write", number(at), number(len(b)) + b

def read(id, at, n):
    return b"Read", id, number(at), number(n)

def short_scripts():
    """Scripts of `calls` that form padded ids, each check ahead of 15 and behind it, and contracts held under padded ids, which stay usable."""
    contract, zero, old = MANY[0], *SHORT[:2]
    # formed: refused, and beside them not
    yield FRESH + form(*SHORT, WORD) + drop(zero, old)
    formed = form(ONE[4], ONE[31], ONE[3], ONE[4], ONE[31])
    yield FRESH + formed + visit(ONE[31], bytes(4096), grow(1)) + drop(ONE[4]) + form(zero, ONE[5], ONE[30])
    yield FRESH + form(b"old1\1".ljust(32, b"\0"), old, b"ReadO".ljust(32, b"\0"), b"Read".ljust(31, b"\0") + b"y")
    # 1 first: no host yet, a host with no slots, a host out of order; then 3, in a program and in read-only mode
    both = form(zero, old)
    yield both + b"F" + number(0, 0) + b"\0" + both + FRESH + poke(0, 0, 0, 65) + both + poke(0, 0, 0, 8) + both
    for id in (contract, WORD):
        ready = FRESH + form(contract) + held(2, old) + opened(id, grow(1))[0]
        yield ready + both + form(WORD) + drop(zero, old) + GIVE_UP + both + drop(zero, old)
    # 15 before 6 and before 8: held, eight held, and both
    for id in SHORT[:2]:
        yield FRESH + held(0, id) + form(id, contract, id) + drop(id) + form(id, MANY[1])
    yield FRESH + form(*MANY[:8]) + form(zero, old, MANY[8], WORD, MANY[0]) + drop(MANY[3]) + form(zero, MANY[8])
    yield FRESH + form(*MANY[:7]) + held(7, old) + form(old, zero, MANY[8]) + drop(old) + form(old, MANY[8])
    # held, and usable: opened, grown, written, agreed to, read by other programs, shrunk, dropped, then gone
    for id, place in ((zero, 7), (old, 2)):
        sector = bytes(100) + b"snack" + bytes(3991)
        changed = visit(id, sector + bytes(4096), grow(1), write(100, b"snack"), grow(2)) + form(id)
        reads = visit(contract, b"", read(id, 100, 5)) + visit(WORD, b"", read(id, 96, 64)) + visit(id, sector, grow(1), read(id, 0, 105))
        gone = b"".join(opened(contract, read(id, 0, 1))) + GIVE_UP + opened(id, grow(1))[0]
        yield FRESH + form(contract) + held(place, id) + changed + reads + form(id) + drop(id, id) + form(id) + gone
    # held with sectors of its own, beside an id that differs from it in a late byte only, and beside another padded one
    filled, near, other = b"\x55" * 4096, old[:31] + b"\1", SHORT[4]
    ready = FRESH + held(5, old, 3, 1) + held(2, other, 0) + form(near)
    visits = visit(near, b"", read(old, 4095, 1)) + visit(old, filled * 2 + bytes(4096), grow(3))
    visits += visit(other, b"new" + filled[3:], write(0, b"new"), read(old, 4000, 90)) + visit(near, bytes(4096), read(other, 0, 4), grow(1))
    yield ready + visits + drop(old, other) + form(other, old)
    # two places under one padded id, which is out of order; an id made a padded one by a poke, with its program open too
    yield FRESH + held(1, zero) + held(4, zero) + form(contract, zero) + drop(zero) + poke(3, 4, 2, 7) + form(contract, zero) + drop(zero)
    start, data = opened(ONE[31], grow(1))
    ready = FRESH + form(ONE[31]) + poke(3, 0, 31, 0) + form(zero) + poke(3, 0, 31, 1) + start + poke(3, 0, 31, 0) + data
    yield ready + poke(16, 31, 0, 0) + data + agree(bytes(4096)) + form(zero) + drop(zero)

def still_scripts():
    """Scripts of `calls` with programs that change nothing: each is closed with the pair that it reaches and with others, and at the end all
    slots of the stage are free."""
    one, two = MANY[:2]
    snacks = b"crisps and nuts".ljust(4096, b".") + b"raisins".ljust(4096, b"\0")
    ready = FRESH + form(one, two) + visit(one, snacks, grow(1), grow(2), write(0, snacks[:4096]), write(4096, b"raisins"))
    pair = size, hash = len(snacks), root(snacks)
    late = hash[:31] + bytes([hash[31] ^ 1])
    others = [(size + 4096, hash), (0, hash), (size, late), (0, bytes(32)), (2**64 - 1, b"\xff" * 32)]
    every = visit(one, snacks + bytes(4096 * 4), *(grow(n) for n in range(3, 7)))
    still = [
        (write(0, b"crisps"),),
        (write(0, b"peanut"), write(4090, snacks[4090:4096]), write(0, b"crisps")),
        (swap(0, 4096, 15), swap(0, 4096, 15)),
        (swap(3, 8000, 64), swap(8000, 3, 64)),
        (copy(5, 5, 100), copy(4096, 4096, 7)),
        (grow(3), grow(2)),
        (grow(3), grow(4), write(12_288, b"new"), grow(3), grow(2)),
        (grow(1), grow(2), write(4096, b"raisins")),
        (grow(2),),
        (read(one, 0, 64),),
        (),
    ]
    for steps in still:
        program = b"".join(opened(one, *steps))
        yield ready + b"".join(program + REACHED + named(*given) for given in (pair, *others)) + every
    # read-only, with the pair that it has and with others; an empty contract
    reads = b"".join(opened(WORD, read(one, 0, 15)))
    yield ready + b"".join(reads + REACHED + named(*given) for given in ((0, bytes(32)), pair, *others))
    empty = b"".join(opened(two, grow(1), grow(0)))
    yield ready + b"".join(empty + REACHED + named(*given) for given in ((0, bytes(32)), pair, *others)) + visit(two, bytes(4096), grow(1))
    # entries past the size, which a commit would clear: seen when the size is poked
    program = b"".join(opened(one, write(0, b"crisps")))
    for given in (pair, others[0]):
        yield ready + poke(5, 0, 2, 7) + program + named(*given) + poke(4, 0, 0, 3 * 4096) + REACHED
    # changed, the size as it was: the starting pair is another one; and changed in size
    start, data = opened(one, write(4103, b"!"))
    changed = snacks[:4103] + b"!" + snacks[4104:]
    near = size, root(changed)[:31] + bytes([root(changed)[31] ^ 1])
    yield ready + b"".join(start + data + named(*given) for given in (pair, *others, near)) + start + data + agree(changed) + every
    for n in (1, 3):
        program, after = b"".join(opened(one, grow(n))), (snacks + bytes(4096))[: 4096 * n]
        yield ready + b"".join(program + named(*given) for given in (pair, *others)) + program + agree(after)
    # 13 first: not ended, failed, interrupted, each with nothing changed; giving up is as ever
    start, data = opened(one, write(0, b"crisps"), grow(9))
    yield ready + start + named(*pair) + data + REACHED + named(*pair) + named(0, bytes(32)) + GIVE_UP
    start, data = opened(WORD, read(one, 0, 15), read(one, 0, 16))
    part = b"p" + number(DISK, STAGE, 96, ROOM, 48) + data[41 : 41 + 48]
    yield ready + start + part + named(0, bytes(32)) + b"i" + number(DISK, ROOM) + named(0, bytes(32)) + GIVE_UP + every
    # 1 and 2 before it: a host out of order, an area of another length
    program = b"".join(opened(one, write(0, b"crisps")))
    short = b"a" + number(DISK, STAGE - 4096, size) + hash
    yield ready + program + poke(0, 0, 0, 65) + named(*pair) + poke(0, 0, 0, 8) + short + named(1, bytes(32)) + named(*pair) + every

SIZES = [2**n for n in range(12, 23)]
BAD_SIZES = [0, 1, 64, 2048, 4095, 4097, 6144, 12_288, 4_194_303, 4_194_305, 2**23, 2**32 + 4096, 2**44, 2**63, 2**64 - 1]

class Sized:
    """The items of a script whose host has sectors of `z` bytes, as many of disk and stage as these."""
    def __init__(self, z, disk, stage):
        self.z, self.disk, self.stage = z, disk * z, stage * z
        self.fresh = fresh_of(z, self.disk, self.stage)
        self.reached = b"r" + number(self.disk, self.stage)
        self.give_up = b"g" + number(self.disk, self.stage)

    def opened(self, contract, *steps):
        head, data = head_and_data(contract, steps)
        start = b"o" + number(65_536, 10**10, 7, 1, 3, 2, 5, 4, 6, len(head)) + head
        return start, b"p" + number(self.disk, self.stage, len(data), 65_536, len(data)) + data

    def visit(self, contract, after, *steps):
        return b"".join(self.opened(contract, *steps)) + b"a" + number(self.disk, self.stage, len(after)) + root(after)

    def failed(self, contract, *steps):
        """Programs of one step each, given up."""
        return b"".join(b"".join(self.opened(contract, step)) + self.give_up for step in steps)

    def grow(self, n):
        return b"Truncate", number(self.z * n)

def fresh_of(z, disk, stage):
    return b"N" + number(z, disk, stage) + b"\x55"

def size(z):
    return poke(25, 0, 0, z)

def proof(b, first, end):
    """What the checker is given: the root of these bytes, their count of segments, the range, its bytes, the hashes."""
    def walk(b, at):
        count = len(b) // 64
        if at + count <= first or end <= at:
            return root(b)
        if first <= at and at + count <= end:
            return b""
        k = 1
        while 2 * k < count:
            k *= 2
        return walk(b[: 64 * k], at) + walk(b[64 * k :], at + k)
    return root(b), len(b) // 64, first, end, b[64 * first : 64 * end], walk(b, 0)

def check(root, count, first, end, b, hashes):
    return b"k" + root + number(count, first, end, len(b), len(b) + len(hashes)) + b + hashes

def sized_scripts():
    """Scripts of `calls` on hosts of other sector sizes (M-103): sizes and lengths taken and refused, programs on each size that a script's areas
    fit, sizes put into the record of a host that holds sectors or an open program."""
    one, two = MANY[:2]
    # sizes and lengths; a host that is made answers 4, one that is not 1, and one too large for the areas 2
    ask = b"r" + number(262_144, 65_536)
    yield b"".join(fresh_of(z, z, z) for z in SIZES) + form(one) + ask
    yield b"".join(fresh_of(z, 64 * z, 16 * z) for z in SIZES) + form(one) + ask + size(4096) + ask
    yield b"".join(fresh_of(z, z % 2**61 * 8, z % 2**61 * 4) for z in BAD_SIZES) + form(one) + ask
    yield b"".join(fresh_of(z, 8192, 4096) for z in BAD_SIZES) + form(one)
    for z in (8192, 65_536, 4_194_304):
        lengths = [0, 4096, z // 2, z - 1, z + 1, z + 4096, 65 * z, 2**63, 2**64 - 1]
        yield b"".join(fresh_of(z, n, z) + fresh_of(z, z, n) for n in lengths) + fresh_of(z, z, 17 * z) + form(one)
    # a size of no host where no other condition of order fails, ahead of the others, and with a program open
    yield FRESH + form(one) + b"".join(size(z) + form(two) for z in BAD_SIZES) + size(4096) + form(two)
    yield FRESH + form(one) + opened(one, grow(1))[0] + b"".join(size(z) + item for z in (0, 2048, 6144, 2**23) for item in (REACHED, GIVE_UP))
    calls = form(one) + drop(one) + b"".join(opened(WORD, grow(1))) + b"i" + number(DISK, ROOM) + REACHED + named(0, bytes(32)) + GIVE_UP
    yield FRESH + size(2048) + calls + poke(0, 0, 0, 2**64 - 1) + poke(2, 0, 0, 1) + poke(4, 0, 0, 2**64 - 1) + calls
    # the lengths lent follow the size
    ready = FRESH + form(one) + visit(one, bytes(8192), grow(1), grow(2))
    for z in (8192, 16_384, 32_768, 65_536):
        lent = number(8 * z % 262_145, 4 * z % 65_537)
        yield ready + size(z) + b"r" + lent + REACHED + size(4096) + REACHED
    larger = Sized(8192, 8, 4)
    yield ready + size(8192) + larger.visit(one, bytes(4090) + b"crisps and nuts" + bytes(8192 - 4105), write(4090, b"crisps and nuts"))
    # sectors of 4 MiB that pokes put there: no area fits, but forming and dropping do
    host = Sized(4_194_304, 64, 16)
    yield host.fresh + poke(3, 3, 5, 1) + poke(4, 3, 0, 2 * host.z) + poke(5, 3, 1, 63) + poke(2, 3, 0, 1) + form(one) + ask + drop(ONE[5])
    for z, disk, stage in ((8192, 4, 2), (16_384, 3, 3), (32_768, 3, 2), (65_536, 4, 1)):
        host = Sized(z, disk, stage)
        ready = host.fresh + form(one, two)
        # Truncate by one sector of this size, and by nothing else
        tries = [(b"Truncate", number(n)) for n in (4096, z - 4096, z // 2, z - 1, z + 1, z + 4096, 2 * z)]
        yield ready + host.failed(one, *tries) + host.visit(one, bytes(z), host.grow(1)) + host.failed(one, (b"Truncate", number(z - 4096)))
        # written across edges of 4,096 and at the sector's ends, committed, read with proofs, looked up by its root
        filled = bytearray(z)
        filled[4090:4105], filled[z - 5 :], filled[z // 2 - 30 : z // 2 + 34] = b"crisps and nuts", b"salty", bytes(range(64))
        filled = bytes(filled)
        writes = write(4090, filled[4090:4105]), write(z - 5, b"salty"), write(z // 2 - 30, filled[z // 2 - 30 : z // 2 + 34])
        ready += host.visit(one, filled, host.grow(1), *writes)
        reads = [read(one, 4032, 128), (b"ReadSector", root(filled), number(4032), number(192)), read(one, z - 64, 64), read(one, 4095, 2)]
        start, data = host.opened(WORD, *reads)
        proved = bytearray(start)
        for i in range(3):
            proved[81 + 40 + 73 * (i + 1) - 1] = 1
        checked = proof(filled, 63, 65)
        yield ready + bytes(proved) + data + host.reached + host.give_up + check(*checked) + check(checked[0], z // 128, *checked[2:])
        # spans at the edges of a sector and across them
        spans = [read(one, z - 1, 1), read(one, z - 1, 2), read(one, z - 4096, 4097), (b"ReadSector", root(filled), number(z - 1), number(2))]
        spans += [write(z - 2, b"abc"), (b"Copy", number(z - 4), number(0), number(5)), (b"Swap", number(0), number(z - 4), number(5))]
        yield ready + host.failed(one, *spans)
        # lent by 4,096 instead
        yield ready + b"r" + number(4096 * disk, 4096 * stage) + b"r" + number(host.disk, 4096 * stage) + b"r" + number(4096 * disk, host.stage)
        if stage > 1:
            # across sectors; whole sectors are staged and committed
            after = bytearray(filled + filled)
            after[z : z + z] = bytes(z)
            after[z + 4090 : z + 4105] = filled[4090:4105]
            after[100:150], after[2 * z - 50 :] = after[2 * z - 50 :], after[100:150]
            steps = host.grow(2), (b"Copy", *map(number, (z + 4090, 4090, 15))), (b"Swap", *map(number, (100, 2 * z - 50, 50)))
            yield ready + host.visit(one, bytes(after), *steps) + host.visit(two, bytes(z), host.grow(1)) + host.failed(two, host.grow(2))

def checked_scripts():
    """Scripts of `calls` for the checker: proofs that are right, and with something changed; counts up to 4,194,304; long tails."""
    segments = bytes(i * 7 // 64 % 256 for i in range(64 * 13))
    for first, end in ((0, 13), (0, 1), (12, 13), (3, 9), (7, 8)):
        right = hash, count, _, _, b, hashes = proof(segments, first, end)
        late = hash[:31] + bytes([hash[31] ^ 1])
        wrong = [(late, *right[1:]), (hash, 14, *right[2:]), (hash, 12, *right[2:]), (hash, 0, *right[2:])]
        wrong += [(hash, count, first + 1, end + 1, b, hashes), (hash, count, end, first, b, hashes), (hash, count, first, first, b"", hashes)]
        wrong += [(hash, count, first, end, *rest) for rest in ((b[:-1], hashes), (b + b"\0", hashes), (b[:-64], hashes), (b + bytes(64), hashes))]
        wrong += [(hash, count, first, end, b, other) for other in (hashes + b"\0", hashes + bytes(32), hashes[:-1], hashes[:-32], hashes[32:])]
        yield b"".join(check(*one) for one in (right, *wrong))
    # all segments alike: a hash a level
    segment, level = bytes(range(64)), [root(bytes(range(64)))]
    for _ in range(23):
        level.append(hashlib.blake2b(b"\1" + level[-1] * 2, digest_size=32).digest())
    most = 4_194_304
    up, down = b"".join(level[:22]), b"".join(level[21::-1])
    joined = lambda k: hashlib.blake2b(b"\1" + level[k] + level[0], digest_size=32).digest()
    yield check(level[22], most, 0, 1, segment, up) + check(level[22], most, most - 1, most, segment, down) + check(level[22], most, 2, 3, segment, up)
    yield check(joined(22), most + 1, most, most + 1, segment, level[22]) + check(joined(21), most // 2 + 1, most // 2, most // 2 + 1, segment, level[21])
    yield check(level[23], 2 * most, 0, 1, segment, up + level[22]) + check(joined(12), 4097, 4096, 4097, segment, level[12])
    yield b"".join(check(level[22], n, 0, 1, segment, up) + check(level[22], most, 0, n, segment, up) for n in (0, 2**32, 2**63, 2**64 - 1))
    yield b"".join(check(level[22], most, n, n + 1, segment, up) for n in (most, 2**63, 2**64 - 2))
    # tails of 131,072 bytes, and of a hash more, which would be right
    long = segment * 2048
    yield check(root(long), 2048, 0, 2048, long, b"")
    yield check(*proof(long + segment, 0, 2048))
    # data lengths above the tail's
    right = check(*proof(segments, 3, 9))
    for n in (len(right) - 73, len(right) - 72, 2**64 - 1):
        yield FRESH + right[:57] + number(n) + right[65:] + REACHED

SOUND = b"s" + number(DISK, STAGE)

def join(roots):
    """The root of a contract from those of its sectors."""
    if len(roots) <= 1:
        return roots[0] if roots else bytes(32)
    k = 1
    while 2 * k < len(roots):
        k *= 2
    return hashlib.blake2b(b"\1" + join(roots[:k]) + join(roots[k:]), digest_size=32).digest()

def proved(step):
    return step[0] + b"*", *step[1:]

def found(root, at, n):
    return b"ReadSector", root, number(at), number(n)

def swap(at, to, n):
    return b"Swap", number(at), number(to), number(n)

def copy(to, at, n):
    return b"Copy", number(to), number(at), number(n)

def keep(field, slot, root):
    """Pokes that make this the kept root of a slot, of disk (26) or stage (27)."""
    return b"".join(poke(field, slot, j, root[j]) for j in range(32))

def kept_scripts():
    """Scripts of `calls` on kept roots (M-105): what sets them, hosts that are sound and hosts that are not, and what follows from a root that
    is not its sector's."""
    one, two = MANY[:2]
    words = b"crisps", b"nuts", b"raisins"
    sectors = [word.ljust(4096, b"\0") for word in words]
    snacks, roots = b"".join(sectors), [root(b) for b in sectors]
    filled = grow(1), grow(2), grow(3), *(write(4096 * i, word) for i, word in enumerate(words))
    ready = FRESH + form(one, two) + visit(one, snacks, *filled)
    program = lambda id, *steps: b"".join(opened(id, *steps))
    # asked of no host, of a refused one, out of order; with other lengths; with no program open and with one
    lengths = (DISK, STAGE), (DISK - 4096, STAGE), (DISK, STAGE - 1), (0, 0), (DISK + 1, STAGE), (DISK, STAGE + 4096), (262_144, 65_536)
    asks = b"".join(b"s" + number(*n) for n in lengths)
    yield asks + b"F" + number(0, 0) + b"\0" + asks + FRESH + asks + form(one) + asks + poke(0, 0, 0, 65) + asks + poke(0, 0, 0, 8) + asks
    start, data = opened(one, write(5000, b"new"), grow(4))
    yield ready + asks + start + asks + data + asks + poke(12, 0, 0, 4097) + asks + poke(12, 0, 0, 16_384) + asks + GIVE_UP + asks
    # a wrong byte in one root: of slots that positions have, of free ones, of those past the areas
    def each_wrong(field, kept, *js):
        """One byte of one root after another changed, with what `s` says, and put back."""
        return b"".join(poke(field, slot, j, now[j] ^ 1) + SOUND + poke(field, slot, j, now[j]) for slot, now in kept.items() for j in js)
    none = bytes(32)
    yield ready + each_wrong(26, {0: roots[0], 1: roots[1], 2: roots[2], 3: none, 7: none, 8: none, 63: none}, 0, 3, 4, 31) + SOUND
    wrong = each_wrong(27, {0: root(b"fresh" + sectors[1][5:]), 1: root(bytes(4096)), 2: roots[2], 3: none, 4: none, 15: none}, 0, 31)
    yield ready + program(one, write(4096, b"fresh"), grow(4)) + SOUND + wrong + SOUND + GIVE_UP + wrong + SOUND
    # wrong at one position: read with proofs of the sector itself and of others, looked up by it and by the bytes', from three contracts
    for at in range(3):
        late = roots[at][:31] + bytes([roots[at][31] ^ 1])
        kept = [late if i == at else hash for i, hash in enumerate(roots)]
        damaged = ready + poke(26, at, 31, late[31]) + SOUND
        pairs = [(12_288, join(kept)), (12_288, root(snacks)), (0, bytes(32))]
        reads = [proved(read(one, 4096 * i + 64, 64)) for i in range(3)] + [read(one, 4096 * at, 7), proved(found(late, 128, 64)), found(roots[at], 0, 7)]
        yield damaged + b"".join(program(id, *reads) + REACHED + GIVE_UP for id in (one, two, WORD)) + SOUND
        # closed with its pair and with the bytes': nothing changed, another sector written, equal bytes, the sector itself
        for place in ((at + 1) % 3, at):
            for b in (b"peanuts", sectors[place][:7]):
                after = [write(4096 * place, b), read(one, 4096 * place, 7), found(late, 0, 7)]
                changed = b + sectors[place][7:]
                bytes_ = snacks[: 4096 * place] + changed + snacks[4096 * place + 4096 :]
                pair = 12_288, join([root(changed) if i == place else hash for i, hash in enumerate(kept)])
                played = damaged + program(one, *after) + SOUND + REACHED
                again = SOUND + program(one, *reads) + REACHED
                yield b"".join(played + named(*given) + again + named(*given) for given in (pair, (12_288, root(bytes_)), pairs[0]))
        # a failure's record, an interrupt; then a cut contract, and a dropped one
        failed = program(one, write(0, b"x"), grow(9)) + REACHED + GIVE_UP
        failed += opened(one, *reads)[0] + b"i" + number(DISK, ROOM) + REACHED + GIVE_UP
        cut = program(one, grow(2), grow(1)) + named(4096, kept[0]) + SOUND + visit(two, bytes(12_288), grow(1), grow(2), grow(3)) + SOUND
        yield damaged + failed + cut + damaged + drop(one) + SOUND + visit(two, bytes(4096), grow(1)) + SOUND
    # the root of another sector: the look-up finds the first place that keeps it, and no longer what it was
    for at, other in ((0, 2), (2, 0), (0, 1)):
        looked = [proved(found(hash, 0, 64)) for hash in (roots[other], roots[at])]
        yield ready + keep(26, at, roots[other]) + SOUND + program(WORD, *looked) + GIVE_UP + program(two, *looked[:1]) + REACHED + named(0, none)
    # of the stage: in the records, committed, and healed by the next instruction that writes there, by growth, by giving up
    def cut_at(n, *steps):
        """A program's opening, its data up to the n-th byte, and the rest."""
        start, data = opened(one, *steps)
        data = data[41:]
        return [start] + [b"p" + number(DISK, STAGE, len(data), ROOM, len(b)) + b for b in (data[:n], data[n:])]
    first, part, rest = cut_at(20, write(4096, b"Nuts"), write(4100, b"!"))
    half, whole = b"Nuts" + sectors[1][4:], b"Nuts!" + sectors[1][5:]
    damage = poke(27, 0, 0, root(half)[0] ^ 1)
    wrong = bytes([root(half)[0] ^ 1]) + root(half)[1:]
    yield ready + first + part + SOUND + damage + SOUND + REACHED + rest + SOUND + REACHED + agree(sectors[0] + whole + sectors[2]) + SOUND
    for given in ((12_288, join([roots[0], wrong, roots[2]])), (12_288, root(sectors[0] + half + sectors[2]))):
        yield ready + program(one, write(4096, b"Nuts")) + damage + REACHED + named(*given) + SOUND + program(WORD, found(wrong, 0, 4)) + REACHED + GIVE_UP
    # the others stay as they are: a sector that is read, copied from, or not named by the instruction
    for step in (write(0, b"C"), copy(0, 4096, 9), swap(0, 8192, 9), grow(4), read(one, 4096, 9)):
        first, part, rest = cut_at(20, write(4096, b"Nuts"), step)
        yield ready + first + part + damage + rest + SOUND + REACHED + GIVE_UP
    grown = program(one, grow(4))
    yield ready + grown + poke(27, 0, 5, 1) + SOUND + REACHED + GIVE_UP + SOUND + grown + SOUND + agree(snacks + bytes(4096)) + SOUND
    # bytes that change under a root that stays: nothing to agree; and the other way round
    after = b"Crisps" + sectors[0][6:]
    for given in ((12_288, join([root(after), *roots[1:]])), (0, none)):
        unseen = program(one, write(0, b"C")) + SOUND + REACHED + named(*given) + SOUND
        yield ready + keep(26, 0, root(after)) + SOUND + unseen + program(one, read(one, 0, 6)) + GIVE_UP
    # what sets a root: each instruction, in one sector and in two, staged and not; freed slots keep theirs and are taken again
    visits = [[copy(0, 4096, 50)], [copy(4096, 4098, 9)], [swap(0, 8192, 64)], [swap(8192, 0, 4096)], [swap(2, 5, 30)], [swap(4096, 0, 7), copy(8192, 0, 7)]]
    for steps in visits:
        more = program(one, write(8192, b"R"), *steps, grow(4), grow(3), grow(4))
        yield ready + program(one, *steps) + SOUND + REACHED + GIVE_UP + more + SOUND + GIVE_UP
    cut = visit(one, sectors[0], grow(2), grow(1)) + SOUND + visit(two, bytes(8192), grow(1), grow(2)) + SOUND
    yield ready + cut + visit(one, sectors[0] + bytes(4096), grow(2)) + SOUND + drop(one) + SOUND + FRESH + SOUND
    over = program(one, grow(2), grow(3), write(8192, b"over")) + SOUND + agree(snacks[:8192] + b"over".ljust(4096, b"\0")) + SOUND
    yield ready + over + program(one, grow(2), grow(1), grow(0), grow(1)) + SOUND + agree(bytes(4096)) + SOUND
    # slots of other sectors: in order, and unsound; two that change places are sound
    longer = poke(4, 0, 0, 16_384) + poke(5, 0, 3, 5)
    for pokes in (poke(5, 0, 0, 3), poke(5, 0, 2, 7), poke(5, 0, 0, 1) + poke(5, 0, 1, 0), longer, poke(4, 0, 0, 4096)):
        yield ready + pokes + SOUND + program(one, proved(read(one, 0, 64))) + REACHED + named(12_288, root(snacks)) + SOUND
    start, data = opened(one, write(0, b"C"), write(4096, b"N"))
    for pokes in (poke(13, 0, 0, 2), poke(13, 0, 0, 1) + poke(13, 1, 0, 0), poke(13, 1, 0, 255), poke(13, 2, 0, 3)):
        yield ready + start + data + pokes + SOUND + REACHED + GIVE_UP + SOUND
    yield ready + poke(6, 0, 0, 1) + SOUND + poke(6, 0, 0, 0) + poke(13, 0, 0, 2) + poke(27, 0, 0, 9) + SOUND
    own = program(two, read(two, 0, 5)) + REACHED + GIVE_UP + program(WORD, found(none, 0, 9)) + GIVE_UP
    yield FRESH + held(3, two, 4, 6) + SOUND + own + keep(26, 4, root(b"\x55" * 4096)) + SOUND + keep(26, 6, root(b"\x55" * 4096)) + SOUND
    # sectors of other sizes: whole sectors are hashed; another size is another host, and unsound
    for z, disk, stage in ((8192, 4, 2), (65_536, 4, 1)):
        host = Sized(z, disk, stage)
        asked, b = b"s" + number(host.disk, host.stage), bytes(z - 5) + b"salty"
        ready_ = host.fresh + form(one) + host.visit(one, b, host.grow(1), write(z - 5, b"salty")) + asked
        wrong = ready_ + poke(26, 0, 7, root(b)[7] ^ 4) + asked
        wrong += b"".join(host.opened(one, proved(read(one, 4096, 64)), found(root(b), 0, 1))) + host.reached + host.give_up
        yield wrong + host.visit(one, b, write(9, b"\0")) + asked + host.visit(one, b[:9] + b"x" + b[10:], write(9, b"x")) + asked
    yield ready + size(8192) + b"s" + number(8 * 8192, 4 * 8192) + SOUND + size(4096) + SOUND + poke(4, 0, 0, 8192) + size(8192) + b"s" + number(8 * 8192, 4 * 8192)

def locate(*roots):
    return b"".join(b"l" + root for root in roots)

def near(root, at=31):
    """A root that differs in one byte."""
    return root[:at] + bytes([root[at] ^ 1]) + root[at + 1 :]

def front(root, n=4):
    """A root that agrees in its first bytes."""
    return root[:n] + bytes(b ^ 0xFF for b in root[n:])

ZEROS = root(bytes(4096))

def sector(word):
    return word.ljust(4096, b"\0")

def looked_depots():
    """Inputs of `depot` whose programs look up what they have written (M-110), in the same piece: found in the stage, with a proof and without;
    overwritten, cut off, or beside it: 25."""
    one, two = MANY[:2]
    nuts, more, end = (root(sector(b)) for b in (b"nuts", b"nuts and dates", b"nuts".rjust(4096, b"\0")))
    grown, wrote = grow(1), write(0, b"nuts")
    yield program(one, [one], grown, wrote, found(nuts, 0, 4))
    yield program(one, [two, one], grown, proved(found(ZEROS, 0, 64)), wrote, proved(found(nuts, 0, 4096)), write(4, b" and dates"), proved(found(more, 64, 128)), found(more, 3, 11))
    for old in (ZEROS, nuts):
        yield program(one, [one], grown, wrote, write(4, b" and dates"), found(more, 0, 14), found(old, 0, 1), found(more, 0, 1))
    # several sectors: which one is found shows in what is read
    three = grown, grow(2), grow(3)
    words = write(0, b"crisps"), write(4096, b"nuts"), write(8192, b"raisins")
    yield program(one, [one], *three, *words, *(proved(found(root(sector(b)), 0, 64)) for b in (b"raisins", b"crisps", b"nuts")))
    yield program(one, [one], *three, *words[::-1], *(found(root(sector(b)), 0, 7) for b in (b"nuts", b"raisins", b"crisps")), found(ZEROS, 0, 1))
    # cut off; grown again
    yield program(one, [one], grown, wrote, grow(0), found(nuts, 0, 4))
    yield program(one, [one], grown, grow(2), write(4096, b"nuts"), grown, found(ZEROS, 0, 4), found(nuts, 0, 4))
    yield program(one, [one], grown, wrote, grow(0), grown, proved(found(ZEROS, 4032, 64)), found(nuts, 0, 4))
    # Copy and Swap
    yield program(one, [one], grown, grow(2), wrote, copy(4096, 0, 4), found(nuts, 0, 4), copy(8188, 0, 4), write(4096, bytes(4)), found(end, 4092, 4), found(nuts, 0, 5))
    yield program(one, [one], grown, grow(2), wrote, swap(0, 8188, 4), found(end, 4090, 6), proved(found(ZEROS, 0, 64)), found(nuts, 0, 4))
    # beside it
    for other in (near(nuts), near(nuts, 0), near(nuts, 4), front(nuts), front(nuts, 8), bytes(32)):
        yield program(one, [one], grown, wrote, found(other, 0, 4))
    yield program(WORD, [one], found(ZEROS, 0, 1))
    yield program(one, [one], found(ZEROS, 0, 1))
    yield program(one, [one], found(bytes(32), 0, 1))
    # 25 before 26, 26 before 27, by the sector that is found
    for step in (found(nuts, 4096, 1), found(nuts, 4095, 2), found(nuts, 4095, 1), found(nuts, 0, 0), proved(found(nuts, 1, 64)), proved(found(nuts, 64, 63)), proved(found(near(nuts), 1, 5000))):
        yield program(one, [one], grown, grow(2), wrote, step)
    # records that fit, and that do not
    filled = grown, wrote, *[found(nuts, 0, 4096)] * 3
    yield from (program(one, [one], *filled, found(nuts, 0, n)) for n in (3664, 3665))
    yield from (program(one, [one], *filled, proved(found(nuts, 0, n))) for n in (3520, 3584))

def looked_scripts():
    """Scripts of `calls` on look-ups by root (M-110), by `l` and by ReadSector: in which order sectors are seen, where they are, and what is no
    longer seen."""
    two, one, three = MANY[:3]
    same, crisps, raisins, nuts = (root(sector(b)) for b in (b"same", b"crisps", b"raisins", b"nuts"))
    # place 0: same; place 1: crisps, same; place 2: same, raisins; so the kept roots of disk slots are these
    slots = [same, crisps, same, same, raisins]
    ready = FRESH + form(two, one, three) + visit(two, sector(b"same"), grow(1), write(0, b"same"))
    ready += visit(one, sector(b"crisps") + sector(b"same"), grow(1), grow(2), write(0, b"crisps"), write(4096, b"same"))
    ready += visit(three, sector(b"same") + sector(b"raisins"), grow(1), grow(2), write(0, b"same"), write(4096, b"raisins"))
    asks = locate(same, crisps, ZEROS, nuts)
    interrupt = b"i" + number(DISK, ROOM)
    play = lambda id, *steps: b"".join(opened(id, *steps))
    def pieces(id, n, *steps):
        """A program's opening, its data up to the n-th byte, and the rest."""
        start, data = opened(id, *steps)
        data = data[41:]
        return [start] + [b"p" + number(DISK, STAGE, len(data), ROOM, len(b)) + b for b in (data[:n], data[n:])]
    def change(field, slot, now, root):
        """Pokes that make this the kept root of a slot that keeps another one."""
        return b"".join(poke(field, slot, j, root[j]) for j in range(32) if root[j] != now[j])
    # no host yet, a refused one, an empty one, one out of order; no program open; roots beside those that are kept
    empty = locate(same, bytes(32))
    yield empty + b"F" + number(0, 0) + b"\0" + empty + FRESH + empty + form(one) + empty + poke(0, 0, 0, 65) + empty + poke(0, 0, 0, 8) + empty
    beside = locate(bytes(32), near(crisps), near(crisps, 0), near(crisps, 4), front(crisps), front(crisps, 31), front(same), near(same))
    yield ready + asks + locate(raisins) + beside + play(one) + beside + GIVE_UP + play(WORD) + beside + GIVE_UP
    # each as the writer, and read-only mode: opened, failed, given up
    for id in (two, one, three, WORD):
        looks = [proved(found(hash, 0, 64)) for hash in (same, crisps, raisins)]
        yield ready + play(id) + asks + GIVE_UP + play(id, *looks, found(nuts, 0, 4)) + asks + REACHED + GIVE_UP + asks
    for id, positions in ((two, 1), (one, 2), (three, 2)):
        # written: half run, ended, failed; interrupted
        for at in range(positions):
            start, part, rest = pieces(id, 24, write(4096 * at, sector(b"nuts")[:8]), proved(found(nuts, 0, 64)), grow(positions + 1), found(ZEROS, 5, 64), found(crisps, 0, 6))
            played = start + asks + part + asks + rest + asks + GIVE_UP + asks
            start, part, rest = pieces(id, 24, write(4096 * at, sector(b"same")[:8]), found(same, 0, 4), found(crisps, 0, 6), grow(9))
            yield ready + played + start + part + asks + rest + asks + interrupt + asks + GIVE_UP
        # cut off, and grown again
        played = play(id, grow(positions - 1), *(found(hash, 0, 7) for hash in (same, crisps, raisins))) + asks + GIVE_UP
        played += play(id, grow(positions - 1), grow(positions), proved(found(ZEROS, 64, 64)), found(nuts, 0, 1)) + asks + interrupt + asks + GIVE_UP
        played += play(id, write(4096 * positions - 4096, b"nuts"), *(grow(n) for n in range(positions - 1, -1, -1))) + asks + GIVE_UP + asks
        yield ready + played
    start, part, rest = pieces(one, 20, write(0, b"nuts"), grow(3))
    yield ready + start + part + interrupt + locate(root(sector(b"nutsps")), crisps) + rest + locate(root(sector(b"nutsps")), ZEROS) + GIVE_UP
    # committed: what the stage held is on the disk, and what it replaced is gone
    yield ready + play(one, write(0, sector(b"nuts")), grow(3)) + asks + agree(sector(b"nuts") + sector(b"same") + bytes(4096)) + asks
    yield ready + play(three, grow(1), grow(0)) + asks + agree(b"") + asks + drop(two) + asks + form(MANY[5]) + asks
    # two equal sectors of the parent: the lowest position, whichever of them the stage holds; slots in another order than positions
    played = ready
    for steps in ((write(4096, sector(b"crisps")),), (write(0, sector(b"same")),), (copy(4096, 0, 4096), grow(3), copy(8192, 0, 4096)), (swap(0, 4096, 4096),)):
        played += play(one, *steps, found(crisps, 0, 6), found(same, 0, 6)) + asks + GIVE_UP
    yield played
    steps = write(4096, sector(b"nuts")), write(0, sector(b"raisins")), grow(3), proved(found(raisins, 0, 64)), found(nuts, 0, 4), found(same, 0, 4)
    yield ready + play(one, *steps) + asks + locate(raisins) + GIVE_UP
    steps = *(grow(n) for n in (2, 3, 4)), write(12_288, b"nuts"), write(4096, b"raisins"), write(8192, b"crisps")
    yield ready + play(two, *steps, found(crisps, 0, 6), found(raisins, 0, 7), found(nuts, 0, 4)) + asks + locate(raisins) + GIVE_UP
    # which of two equal roots is read shows where the bytes differ: kept roots of other sectors
    for slot, hash in ((0, crisps), (3, crisps), (2, raisins), (4, crisps)):
        wrong = ready + change(26, slot, slots[slot], hash)
        ask = locate(hash, same)
        wrong += ask + b"".join(play(id, proved(found(hash, 0, 64)), found(same, 0, 7)) + ask + GIVE_UP for id in (two, one, three, WORD))
        yield wrong + b"".join(play(id, write(0, b"nuts"), found(hash, 0, 7)) + ask + GIVE_UP for id in (two, one, three)) + SOUND
    # roots that agree in all but a late byte, or in four bytes alone, beside each other: of two contracts, of one, of the stage
    for like, slot in ((near(crisps), 0), (front(crisps), 2), (near(crisps), 2), (front(crisps), 3)):
        both, looks = locate(crisps, like, near(like, 9)), (found(crisps, 0, 6), proved(found(like, 64, 64)))
        wrong = ready + change(26, slot, slots[slot], like) + both
        turned = change(26, slot, like, crisps) + change(26, 1, crisps, like) + both
        visits = b"".join(play(id, *looks) + both + GIVE_UP for id in (one, three, WORD))
        yield wrong + visits + turned + visits
    for like in (near(crisps), front(crisps), front(crisps, 31)):
        start, part, rest = pieces(one, 24, write(4096, b"nuts and"), found(like, 0, 8), found(crisps, 0, 6), found(near(like, 9), 0, 1))
        ask = locate(crisps, like, same)
        yield ready + start + part + change(27, 0, root(sector(b"nuts and")), like) + ask + rest + ask + SOUND + GIVE_UP + ask
    # of the stage: the kept root of the copy, not its bytes', nor the disk's under it
    mixed = root(sector(b"nutsps"))
    start, part, rest = pieces(one, 20, write(0, b"nuts"), proved(found(crisps, 0, 64)), found(raisins, 0, 7), found(mixed, 0, 6))
    for hash in (crisps, raisins, bytes(32)):
        wrong = start + part + change(27, 0, mixed, hash)
        yield ready + wrong + asks + locate(hash, mixed) + rest + asks + REACHED + GIVE_UP + asks
    # free slots keep roots that no position has; a kept root of zeros is one like any other
    kept = keep(26, 5, nuts) + change(27, 1, raisins, nuts)
    yield ready + kept + asks + play(one, write(0, b"C")) + asks + GIVE_UP + asks
    for slot in (0, 2):
        zero = locate(bytes(32))
        looks = b"".join(play(id, found(bytes(32), 0, 7)) + zero + GIVE_UP for id in (two, one, WORD))
        yield ready + change(26, slot, same, bytes(32)) + zero + looks
    # the zero id: no parent while no program is open, whatever the closed program's record holds; then a parent like any other
    id, filled = bytes(32), root(b"\x55" * 4096)
    base = FRESH + b"".join(keep(26, slot, filled) for slot in (0, 4))
    ask = locate(filled, nuts)
    for place, slot in ((7, 0), (0, 4)):
        zero_held = base + held(place, id, slot) + held(5, one, 4 - slot) + ask
        closed = poke(12, 0, 0, 4096) + ask + poke(13, 0, 0, 255) + ask + poke(11, 0, 0, 1) + ask
        yield zero_held + closed + poke(16, 5, 0, one[5]) + ask
        nutty = locate(root(b"nuts" + b"\x55" * 4092))
        yield zero_held + play(id, write(0, b"nuts")) + ask + nutty + GIVE_UP + ask + play(WORD, found(filled, 0, 1)) + ask + GIVE_UP
        yield zero_held + play(one, found(filled, 0, 1)) + ask + poke(6, 0, 0, 0) + ask + poke(6, 0, 0, 1) + ask + GIVE_UP + ask
    # the closed program's record names a contract that is held
    named_ = b"".join(poke(16, i, 0, one[i]) for i in range(32))
    yield ready + named_ + poke(12, 0, 0, 4096) + asks + poke(13, 0, 0, 255) + asks + change(27, 0, same, nuts) + asks
    # places that are not held, positions past a size, other slots
    for place in range(3):
        yield ready + poke(2, place, 0, 0) + asks + poke(2, place, 0, 1) + poke(4, place, 0, 0) + asks + poke(4, place, 0, 4096) + asks
    yield ready + play(one, write(0, b"nuts")) + poke(2, 2, 0, 0) + asks + poke(4, 1, 0, 4096) + asks + poke(12, 0, 0, 4096) + asks + poke(13, 0, 0, 255) + asks
    yield ready + poke(5, 1, 0, 2) + poke(5, 1, 1, 1) + asks + play(one, write(0, b"S"), found(crisps, 0, 6)) + asks + GIVE_UP
    # out of order, with a program and without
    ask = locate(crisps, bytes(32))
    for field, i, j, value, back in ((0, 0, 0, 65, 8), (1, 0, 0, 0, 4), (25, 0, 0, 6144, 4096), (4, 1, 0, 4097, 8192), (5, 1, 1, 1, 2)):
        yield ready + poke(field, i, j, value) + ask + poke(field, i, j, back) + ask
    for pokes in (poke(12, 0, 0, 4097), poke(12, 0, 0, 2**63), poke(13, 1, 0, 0), poke(13, 0, 0, 9), poke(8, 0, 0, 9), poke(18, 0, 0, 2**64 - 1), poke(16, 0, 0, 77), size(8192)):
        yield ready + play(one, write(0, b"nuts")) + pokes + ask
    # program records that no run makes: not run, ended, failed, with sectors staged
    start, data = opened(one, write(0, b"nuts"), write(4096, b"n"))
    ask = locate(crisps, same, mixed, root(sector(b"name")))
    for pokes in (poke(11, 0, 0, 1) + poke(8, 0, 0, 0), poke(13, 0, 0, 1) + poke(13, 1, 0, 0), poke(13, 0, 0, 255), poke(13, 1, 0, 3)):
        yield ready + start + data + pokes + ask + GIVE_UP
    # places 0 to 7 and positions 0 to 63: the last ones too
    eight = FRESH + form(*MANY[:8]) + b"".join(visit(id, sector(b"%d" % k), grow(1), write(0, b"%d" % k)) for k, id in enumerate(MANY[:8]))
    numbered = [root(sector(b"%d" % k)) for k in range(8)]
    yield eight + locate(*numbered) + play(MANY[7]) + locate(*numbered) + GIVE_UP + play(WORD, *(found(hash, 0, 1) for hash in numbered)) + GIVE_UP
    yield eight + change(26, 7, numbered[7], numbered[0]) + b"".join(play(MANY[k], found(numbered[0], 0, 1)) + locate(numbered[0], numbered[7]) + GIVE_UP for k in (0, 3, 7))
    long = b"F" + number(262_144, 65_536) + b"\x55" + held(6, one, *range(64)) + keep(26, 62, crisps) + keep(26, 63, same)
    ask, wide = locate(crisps, same, bytes(32)), opened(one)[0]
    yield long + ask + wide + ask + b"g" + number(262_144, 65_536) + change(26, 62, crisps, same) + ask + wide + ask
    # other sector sizes; areas that do not fit, of which `l` lends none
    for z, disk, stage in ((8192, 4, 2), (65_536, 4, 1)):
        host = Sized(z, disk, stage)
        salty, plain = bytes(z - 5) + b"salty", b"plain".ljust(z, b"\0")
        ready_ = host.fresh + form(one, two) + host.visit(one, salty, host.grow(1), write(z - 5, b"salty")) + host.visit(two, plain, host.grow(1), write(0, b"plain"))
        asked = locate(root(salty), root(plain), root(bytes(z)), root(salty[-4096:]), ZEROS)
        written = b"".join(host.opened(two, write(0, bytes(5)), proved(found(root(bytes(z)), z - 64, 64)), write(z - 5, b"salty"), found(root(salty), z - 6, 6)))
        yield ready_ + asked + written + asked + host.reached + host.give_up + asked + b"".join(host.opened(WORD, found(root(plain), 4094, 4))) + asked + host.give_up
    host = Sized(4_194_304, 64, 16)
    huge = host.fresh + form(two, one, three) + b"".join(poke(4, k, 0, 2 * host.z) + poke(5, k, 0, 2 * k) + poke(5, k, 1, 2 * k + 1) for k in range(3))
    huge += keep(26, 1, same) + keep(26, 2, same) + keep(26, 3, crisps)
    yield huge + asks + host.opened(one)[0] + asks + poke(12, 0, 0, host.z) + asks + poke(6, 0, 0, 0) + asks
    yield ready + poke(12, 0, 0, 0) + size(8192) + asks + poke(4, 0, 0, 8192) + poke(5, 0, 0, 5) + asks + size(4096) + asks

def scripts():
    """Scripts of `calls` that are cut off, that lend too much, or that poke past an array or a width."""
    example = (here.parent / "calls" / "stdin").read_bytes()
    yield from (example[:n] for n in (0, 1, 17, 18, 19, 51, 130, 400, 500, 620, 850, len(example) - 1, len(example)))
    areas = {"p": (262_144, 65_536, 65_536, 65_536), "i": (262_144, 65_536)}
    areas.update(dict.fromkeys("gars", (262_144, 65_536)))
    rest = {"p": number(3) + b"abc", "a": number(0) + bytes(32)}
    fresh = b"F" + number(262_144, 65_536) + b"\x55"
    for kind, lengths in areas.items():
        item = lambda ns: kind.encode() + number(*ns) + rest.get(kind, b"")
        yield fresh + item(lengths) + item([0] * len(lengths))
        yield from (fresh + item([n + (j == k) for j, n in enumerate(lengths)]) for k in range(len(lengths)))
    any = 2**64 - 1
    for field in range(29):
        last_i = {2: 7, 3: 7, 4: 7, 5: 7, 13: 63, 16: 31, 19: 31, 20: 31, 21: 31, 22: 31, 23: 31, 24: 6, 26: 63, 27: 15}.get(field, any)
        last_j = {3: 31, 5: 63, 19: 15, 21: 3, 22: 3, 26: 31, 27: 31}.get(field, any)
        most = {2: 1, 6: 1, 11: 1, 23: 1, 3: 255, 5: 255, 13: 255, 16: 255, 19: 255, 24: 65_535, 26: 255, 27: 255}.get(field, any)
        poke = lambda *ns: b"x" + number(field, *ns)
        good = fresh + b"x" + number(2, 7, 0, 1) + b"x" + number(6, 0, 0, 1) + poke(last_i, last_j, most)
        yield good + b"r" + number(262_144, 65_536)
        for past in ((last_i + 1, last_j, most), (last_i, last_j + 1, most), (last_i, last_j, most + 1)):
            if max(past) <= any:
                yield good[:18] + poke(*past)
    price = b"o" + number(72, 0, *[65_535] * 7)
    head = bytes(32) + number(0, 0)
    yield fresh + price + number(len(head)) + head
    yield from (fresh + price[: 17 + 8 * k] + number(65_536) + price[25 + 8 * k :] + number(len(head)) + head for k in (0, 6))
    yield from (fresh + b"o" + number(72, 99, *[0] * 7, n) + head + bytes(3000) for n in (47, 49, 2896, 2897, 2898, 3048, 3049, 2**64 - 1))
    yield b"?" + fresh
    yield from cut_items(fresh)

def cut_items(fresh):
    """Scripts whose last item is cut, or has a head or a piece longer than what is kept of it (2,897 and 65,537 bytes). An item that is
    played follows where the long one is whole, and the same bytes follow where it is malformed."""
    contract = bytes(range(1, 33))
    reached = b"r" + number(262_144, 65_536)
    head = contract + number(1) + b"Truncate".ljust(16, b"\0") + number(1, 0, 8) + b"\0" + number(65_536)
    def open_(given, n=None):
        return b"o" + number(72, 10**9, 7, 1, 3, 2, 5, 4, 6, len(given) if n is None else n) + given
    def piece(given, n=None):
        return b"p" + number(262_144, 65_536, 65_536, 72, len(given) if n is None else n) + given
    ready = fresh + b"f" + contract
    whole = {
        "F": fresh,
        "N": b"N" + number(8192, 262_144, 65_536) + b"\x55",
        "k": check(*proof(bytes(range(192)), 1, 2)),
        "f": b"f" + contract,
        "d": b"d" + contract,
        "o": open_(head),
        "p": piece(number(4096)),
        "i": b"i" + number(262_144, 72),
        "g": b"g" + number(262_144, 65_536),
        "a": b"a" + number(262_144, 65_536, 0) + bytes(32),
        "r": reached,
        "s": b"s" + number(262_144, 65_536),
        "l": b"l" + contract,
        "x": b"x" + number(9, 0, 0, 1),
    }
    fixed = {"o": 81, "p": 41, "k": 73}
    for kind, item in whole.items():
        ahead = ready + (open_(head) if kind in "piga" else b"")
        end = fixed.get(kind, len(item))
        for n in sorted({1, 2, 8, 9, 16, 17, end - 8, end - 1, end, len(item) - 1} & set(range(1, len(item)))):
            yield ahead + item[:n]
        yield ahead + item + item[:1]
    yield from (ready + bytes([kind]) + reached for kind in (0, ord("?"), ord("R"), ord("q"), 255))
    for n in (2_897, 2_898, 2_899, 6_000):
        long = head + bytes(n - len(head))
        yield ready + open_(long) + reached
        yield from (ready + open_(long)[:k] for k in (81 + 100, 81 + 2_896, 81 + 2_897, 81 + n - 1) if k < 81 + n)
    yield ready + open_(head, 2**64 - 1) + bytes(3_000)
    longest = contract + number(32) + (b"Truncate".ljust(16, b"\0") + number(4, *[0] * 8) + b"\0") * 32 + number(0)
    yield from (ready + open_(longest + bytes(n)) + reached for n in (0, 1, 2, 100))
    opened = ready + open_(head)
    long = number(4096) + bytes(65_531)
    yield from (opened + piece(long[:n]) + reached for n in (65_536, 65_537, 65_538, 65_539))
    yield from (opened + piece(long[:n], 65_539) for n in (65_536, 65_537, 65_538))
    yield from (opened + piece(long[:9], n) for n in (65_536, 65_537, 65_538, 2**64 - 1))

cases = chosen(generated()) + [("d", b) for f in (depots, short_depots, looked_depots) for b in f()] + [("c", b) for f in (scripts, short_scripts, still_scripts, sized_scripts, checked_scripts, kept_scripts, looked_scripts) for b in f()]
given = b"".join(kind.encode() + number(len(b)) + b for kind, b in cases)
here.joinpath("stdin").write_bytes(given)
lines = subprocess.run([model, "cases"], input=given, capture_output=True, check=True).stdout
here.joinpath("stdout").write_bytes(lines)
print(len(given), "bytes;", {kind: sum(k == kind for k, _ in cases) for kind in "dc"})
