#!/usr/bin/env python3
"""Makes `stdin`: the records of a program that grows a contract, writes to it, reads from it with a proof, reads all of it, and fails, as the
model writes them. `model/run check` builds the model."""
import pathlib, struct, subprocess

def number(*ns):
    return struct.pack(f"<{len(ns)}Q", *ns)

contract = bytes(range(1, 33))
data, head, count = b"", b"", 0

def instruction(name, *inputs, proof=False):
    global data, head, count
    head += name.ljust(16, b"\0") + number(len(inputs))
    for given in inputs:
        head += number(len(data), len(given))
        data += given
    head += bytes([proof])
    count += 1

instruction(b"Truncate", number(4096))
instruction(b"Write", number(100), number(5) + b"wicks")
instruction(b"Read", contract, number(64), number(64), proof=True)
instruction(b"Read", contract, number(0), number(4096))
instruction(b"Read", contract, number(4095), number(2))
head = contract + number(count) + head + number(len(data))
given = number(7, 7, 1, 3, 2, 5, 4, 6, 10**9, 1) + contract + number(len(head)) + head + data
here = pathlib.Path(__file__).parent
model = here.parent.parent / "target" / "model" / "model"
here.joinpath("stdin").write_bytes(subprocess.run([model, "depot"], input=given, capture_output=True, check=True).stdout)
