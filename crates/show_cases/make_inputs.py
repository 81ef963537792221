#!/usr/bin/env python3
"""Makes `stdin`, inputs of `show` (each as its length in 8 bytes and its bytes), and `stdout`, what `show` must print for each. The words are
those of document 01's tables, for 15 document 02's, and records are read as document 01 lays them out: number, cost, size (8 bytes each), root
(32), proof count and hashes, output count and bytes."""
import pathlib, struct

REFUSALS = {
    1: "host not in order",
    2: "an area or length not as stated",
    3: "a program is open",
    4: "no program open",
    5: "id is the ReadOnly word",
    6: "id already present",
    7: "contract not found",
    8: "no free place for a contract",
    9: "bytes missing or left over, a flag above 1, or a price or their count not as stated",
    10: "a count or the declared length above its limit",
    11: "start price above budget",
    12: "data passes the declared length",
    13: "program not ended",
    14: "agreed size or root differs",
    15: "id is four bytes filled with zeros",
}
FAILURES = {
    20: "interrupted",
    21: "invalid): unknown name, or operand count wrong",
    22: "invalid): operand past the declared length",
    23: "invalid): input of a wrong length or count",
    24: "invalid): read-only mode",
    25: "invalid): contract or sector root not found",
    26: "invalid): span or size not possible",
    27: "invalid): proof not possible",
    28: "invalid): above the budget",
    40: "host): too few free stage slots",
    41: "host): disk too small",
    42: "host): record does not fit",
}
MOST = 65_536  # bytes of the longest output area
LAST = 2**64 - 1

# ---- what is printed

def number_of(b):
    return struct.unpack("<Q", b)[0]

def status(n):
    if n == 0:
        return "done"
    told = FAILURES.get(n, "no record's number")
    return f"failed, {n} ({told}" + ("" if "): " in told else ")")

class Damaged(Exception):
    pass

def record(b, at):
    """The lines of the record that begins at `at`, less its place, and where it ends."""
    if len(b) < at + 64:
        raise Damaged(f"makes no sense from byte {at} on: the record is cut off")
    n, cost, size, root, count = *struct.unpack_from("<QQQ", b, at), b[at + 24 : at + 56], number_of(b[at + 56 : at + 64])
    middle = at + 64 + 32 * count
    if len(b) < middle:
        raise Damaged(f"makes no sense from byte {at + 56} on: its count of hashes passes the end")
    if len(b) < middle + 8:
        raise Damaged(f"makes no sense from byte {middle} on: it is cut off before its output")
    output = b[middle + 8 :][: number_of(b[middle : middle + 8])]
    if len(output) < number_of(b[middle : middle + 8]):
        raise Damaged(f"makes no sense from byte {middle} on: its count of output bytes passes the end")
    lines = [f"{status(n)}, cost {cost}, size {size}, root {root.hex()}, proof hashes {count}, output bytes {len(output)}"]
    lines += [f"   hash   {b[k : k + 32].hex()}" for k in range(at + 64, middle, 32)]
    if output:
        lines.append(f"   output {output[:64].hex()}" + ("…" if 64 < len(output) else ""))
    return lines, middle + 8 + len(output)

def printed(given):
    if not given:
        return ["no records"]
    if len(given) == 8:
        n = number_of(given)
        return [f"refused: {n}, {REFUSALS.get(n, 'which is no refusal' + chr(39) + 's number')}"]
    b, at, place, lines = given[:MOST], 0, 1, []
    try:
        while at < len(b):
            (first, *rest), at = record(b, at)
            lines += [f"{place}: {first}", *rest]
            place += 1
    except Damaged as told:
        lines.append(f"{place}: {told}")
    if MOST < len(given):
        lines.append(f"stopped at byte {MOST}: no output area is longer, and the bytes from there on are not shown")
    return lines

# ---- inputs

def number(*ns):
    return struct.pack(f"<{len(ns)}Q", *ns)

def some(n, first=1):
    return bytes((first + 7 * k) % 256 for k in range(n))

def made(n=0, cost=5_242_926, size=4096, root=some(32), hashes=0, output=b"", count=None, many=None):
    """A record; `count` and `many` in place of the counts that it should have."""
    ahead = number(n, cost, size) + root + number(hashes if count is None else count)
    return ahead + some(32 * hashes, 3) + number(len(output) if many is None else many) + output

def failure(n):
    return made(n, 0, 0, bytes(32))

def inputs():
    yield b""
    yield from map(number, (*range(17), 20, 2**32, LAST))
    yield from (made(), made(size=LAST, cost=LAST), bytes(72), bytes(144))
    yield from (made(output=some(n)) for n in (1, 63, 64, 65, 4096))
    yield from (made(hashes=n, output=some(64)) for n in (1, 2, 12))
    yield made(hashes=3)
    yield made() + made(hashes=2, output=some(65)) + failure(26)
    yield from (failure(n) for n in FAILURES)
    yield from (made() + failure(n) for n in (1, 19, 29, 30, 39, 43, 2**32 + 40, LAST))
    # cut at each part: in the head of a record, in hashes, before output, in its count, in output; alone and behind a good record
    whole = made(hashes=2, output=some(70))
    for n in (1, 7, 9, 16, 24, 55, 56, 57, 63, 64, 65, 95, 96, 127, 128, 129, 135, 136, 137, 200, 205):
        yield whole[:n]
        yield made(hashes=1, output=some(3)) + whole[:n]
    yield whole[:8]  # by its length a refusal
    yield made() + whole[:8]
    yield whole + b"\0"
    # counts that pass the end, also where 32 times the count or the sum would wrap
    for n in (3, 5, 2**58, 2**59 - 1, 2**59, 2**59 + 2, 2**63, LAST - 2, LAST):
        yield made(hashes=2, output=some(70), count=n)
        yield made() + made(hashes=2, count=n)
    for n in (71, 256, 2**32, 2**63, 2**64 - 136, 2**64 - 8, LAST):
        yield made(hashes=2, output=some(70), many=n)
        yield made() + made(output=some(1), many=n)
    # a count that is too small: what is left makes no record
    yield made(hashes=2, output=some(70), count=1)
    yield made(output=some(70), many=5)
    # around the longest output area
    yield from (made(output=some(n - 72)) for n in (MOST, MOST + 1, MOST + 5_000))
    yield from (made(hashes=1) + made(output=some(n - 176)) for n in (MOST, MOST + 8))
    yield made(output=some(MOST - 144)) + made() + made()
    yield made(output=some(MOST - 143)) + made()
    yield made(output=some(MOST - 72)) + number(9)
    yield made(output=some(MOST - 80)) + number(9)
    # and after the long ones an input begins where it should
    yield number(9)

here = pathlib.Path(__file__).parent
given = list(inputs())
here.joinpath("stdin").write_bytes(b"".join(number(len(b)) + b for b in given))
lines = [line for place, b in enumerate(given) for line in (f"input {place}, bytes {len(b)}", *printed(b))]
here.joinpath("stdout").write_text("".join(line + "\n" for line in lines))
print(len(given), "inputs")
