#!/usr/bin/env python3
"""Makes `stdin` and `stdout` of blake2b_vectors: what the program is run on, and what it must write.

The digests are those of Python's hashlib.blake2b (CPython's copy of the BLAKE2 team's reference code), which shares nothing with
this repository. The self-test's line says that the program found the constant printed in RFC 7693, Appendix E; the same sequence is
run here over hashlib too, so that the constant is not taken on trust.

usage: make_vectors.py            writes both files beside this script
"""
import hashlib
import os
import struct

HERE = os.path.dirname(os.path.abspath(__file__))
DIGESTS = [1, 2, 20, 31, 32, 48, 63, 64]
KEYS = [0, 1, 32, 63, 64]
MESSAGES = [0, 1, 63, 64, 65, 127, 128, 129, 255, 256, 257, 1000]
REFUSED = [(0, 0, 3), (65, 0, 3), (66, 64, 0), (32, 65, 3), (64, 66, 1000), (0, 65, 0)]
GRAND = bytes.fromhex("C23A7800D98123BD10F506C61E29DA5603D763B8BBAD2E737F5E765A7BCCD475")


def sequence(n):
    a, b, out = 0xDEAD4BAD * n & 0xFFFFFFFF, 1, bytearray()
    for _ in range(n):
        a, b = b, (a + b) & 0xFFFFFFFF
        out.append(b >> 24)
    return bytes(out)


def self_test():
    grand = hashlib.blake2b(digest_size=32)
    for nn in (20, 32, 48, 64):
        for ll in (0, 3, 128, 129, 255, 1024):
            message, key = sequence(ll), sequence(nn)
            grand.update(hashlib.blake2b(message, digest_size=nn).digest())
            grand.update(hashlib.blake2b(message, digest_size=nn, key=key).digest())
    return grand.digest()


def main():
    assert self_test() == GRAND
    keys = bytes((i * 167 + 13) % 256 for i in range(66))
    messages = bytes((i * i + 7 * i + 3) % 251 for i in range(1000))
    items = [(nn, kk, ll) for nn in DIGESTS for kk in KEYS for ll in MESSAGES] + REFUSED
    lines = ["RFC 7693 Appendix E self-test: passed"]
    for nn, kk, ll in items:
        if (nn, kk, ll) in REFUSED:
            said = "refused, 2"
        else:
            said = hashlib.blake2b(messages[:ll], digest_size=nn, key=keys[:kk]).hexdigest()
        lines.append(f"digest {nn}, key {kk}, message {ll}: {said}")
    with open(os.path.join(HERE, "stdin"), "wb") as f:
        f.write(keys + messages + b"".join(struct.pack("<QQQ", *item) for item in items))
    with open(os.path.join(HERE, "stdout"), "w") as f:
        f.write("\n".join(lines) + "\n")
    print(f"{len(items)} items")


main()
