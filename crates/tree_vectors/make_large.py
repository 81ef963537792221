#!/usr/bin/env python3
"""The proof of one segment among 4,194,304, the most that the checker takes, and among one more, worked out from the whole trees.

use: crates/tree_vectors/make_large.py

It writes crates/tree_vectors/stdin: for each count the root, the segment, and the hashes; and prints the lines that `tree_vectors` is to write
for them. Segment i is the number i in 8 bytes, the lowest first, 8 times over. A leaf's hash is of a byte 0 and the segment, a node's of a byte 1,
left, right (document 01; RFC 6962 section 2.1). The hashes stand in the order of document 01's walk: from the top; a part outside the range
gives its root, the part inside nothing, any other its left part, then its right one. Before anything is written an own checker takes the
proof, and refuses it with a segment, an index, a count or a hash changed. It takes some 15 seconds."""
import hashlib, os, struct

COUNT, INDEX = 4_194_304, 2_718_281

def digest(message):
    return hashlib.blake2b(message, digest_size=32).digest()

def segment(i):
    return struct.pack("<Q", i) * 8

def leaf(i):
    return digest(b"\0" + segment(i))

def levels():
    """The hashes of each level, leaves first, as one string a level: 4,194,304 of them, then half as many, down to the root."""
    level = b"".join([leaf(i) for i in range(COUNT)])
    while True:
        yield level
        if len(level) == 32:
            return
        level = b"".join([digest(b"\1" + level[at : at + 64]) for at in range(0, len(level), 64)])

def left_part(count):
    """The largest power of two below the count."""
    part = 1
    while 2 * part < count:
        part *= 2
    return part

def walk(all, at, count, first, end):
    """The proof: `all` holds the levels of a tree whose count is a power of two."""
    if at + count <= first or end <= at:
        level = count.bit_length() - 1
        place = at >> level
        return [all[level][32 * place : 32 * place + 32]]
    if first <= at and at + count <= end:
        return []
    part = left_part(count)
    return walk(all, at, part, first, end) + walk(all, at + part, count - part, first, end)

def rebuilt(at, count, first, end, data, hashes):
    """The same walk, with the hashes taken from the front; an IndexError where they are too few."""
    if at + count <= first or end <= at:
        return hashes.pop(0)
    if count == 1:
        return digest(b"\0" + data[64 * (at - first) : 64 * (at - first) + 64])
    part = left_part(count)
    left = rebuilt(at, part, first, end, data, hashes)
    return digest(b"\1" + left + rebuilt(at + part, count - part, first, end, data, hashes))

def proves(root, count, index, data, hashes):
    """The checker without its limit on the count."""
    rest = list(hashes)
    try:
        return index < count and rebuilt(0, count, index, index + 1, data, rest) == root and not rest
    except IndexError:
        return False

def check(root, count, hashes):
    """The proof is accepted, and with anything changed it is not."""
    data = segment(INDEX)
    assert proves(root, count, INDEX, data, hashes)
    assert not proves(root, count, INDEX, segment(INDEX + 1), hashes)
    assert not proves(digest(root), count, INDEX, data, hashes)
    for index in (INDEX - 1, INDEX + 1, INDEX ^ 1, 0, count - 1):
        assert not proves(root, count, index, data, hashes)
    for other in (COUNT // 2, INDEX + 1):
        assert not proves(root, other, INDEX, data, hashes)
    for i in range(len(hashes)):
        changed = bytes([hashes[i][0] ^ 1]) + hashes[i][1:]
        assert not proves(root, count, INDEX, data, hashes[:i] + [changed] + hashes[i + 1 :])
        assert not proves(root, count, INDEX, data, hashes[:i] + hashes[i + 1 :])
    assert not proves(root, count, INDEX, data, hashes + [root])

def line(count, hashes, says):
    print(f"count {count}: count {count}, range {INDEX} {INDEX + 1}, root bytes 32, segment bytes 64, "
          f"hashes {len(hashes)}, hash bytes {32 * len(hashes)}: {says}")

def main():
    all = list(levels())
    root = all[-1]
    hashes = walk(all, 0, COUNT, INDEX, INDEX + 1)
    check(root, COUNT, hashes)
    # one segment more: that tree is the left part, the segment the right one
    more_root = digest(b"\1" + root + leaf(COUNT))
    more_hashes = hashes + [leaf(COUNT)]
    check(more_root, COUNT + 1, more_hashes)
    with open(os.path.join(os.path.dirname(__file__), "stdin"), "wb") as out:
        for top, proof in ((root, hashes), (more_root, more_hashes)):
            out.write(top + segment(INDEX) + b"".join(proof))
    line(COUNT, hashes, "yes")
    line(COUNT + 1, more_hashes, "no")

main()
