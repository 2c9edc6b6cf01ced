#!/usr/bin/env python3
"""Prints what each build of the timed program saw: the least time of all rounds, and how many times the plain loop's rate."""
import hashlib
import sys

SEED, NAME, LEAF, MESSAGE = bytes([1]) * 32, bytes([2]) * 16, 3, b"a short message"
TYPES = {"5.3": (5, 4, 67), "5.4": (5, 8, 34), "6.3": (10, 4, 67), "6.4": (10, 8, 34)}


def blocks(size):
    return (size + 9 + 63) // 64


def digits(width, chains):
    """The digits of the message's hash and its checksum (RFC 8554, section 4.4), with this project's randomiser."""
    leaf = NAME + LEAF.to_bytes(4, "big")
    randomiser = hashlib.sha256(leaf + b"\xff\xfd\xff" + SEED).digest()
    hashed = hashlib.sha256(leaf + b"\x81\x81" + randomiser + MESSAGE).digest()
    def cut(data):
        return [d for byte in data for d in ((byte >> 4, byte & 15) if width == 4 else (byte,))]
    total = sum((1 << width) - 1 - d for d in cut(hashed))
    return cut(hashed + (total << (4 if width == 4 else 0)).to_bytes(2, "big"))[:chains]


def compressions(height, width, chains):
    """The blocks that a plain program hashes for a key, a signature and a check."""
    whole = chains * ((1 << width) - 1)
    wide = blocks(22 + 32 * chains)
    leaves = 1 << height
    steps = sum(digits(width, chains))
    make = leaves * (chains + whole + wide + blocks(54)) + (leaves - 1) * blocks(86)
    hashed = blocks(22 + 32 + len(MESSAGE))
    return make, 1 + hashed + chains + steps, hashed + (whole - steps) + wide + blocks(54) + height * blocks(86)


def least(path):
    """The least time of one call, by what was called and the types."""
    found = {}
    for line in open(path):
        name, types, count, nanos = line.split()
        if name == "good" and count != nanos:
            sys.exit("a signature was refused")
        if name in ("plain", "lanes", "make", "sign", "verify", "search"):
            each = int(nanos) / (200 if name == "search" else int(count))
            found[name, types] = min(each, found.get((name, types), each))
    return found


for word in sys.argv[1:]:
    build, path = word.split("=")
    found = least(path)
    plain, lanes = found["plain", "5.3"], found["lanes", "5.3"]
    print(f"{build}: plain loop {plain:.0f} ns a block, {1e3 / plain:.2f} million a second; "
          f"lanes {lanes:.0f} ns, {1e3 / lanes:.2f} million a second, {plain / lanes:.2f} times")
    for (name, types), each in found.items():
        if name in ("make", "sign", "verify"):
            work = compressions(*TYPES[types])[("make", "sign", "verify").index(name)]
            print(f"{build}: {name} {types}: {each / 1e6:.3f} ms, {1e9 / each:.2f} a second, {work} blocks, "
                  f"{work * plain / each:.2f} times the plain loop's rate")
        if name == "search":
            print(f"{build}: search in 256 delegations, one line: {each / 1e6:.3f} ms")
