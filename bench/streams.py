#!/usr/bin/env python3
"""Prints what the timed program saw: rates of streams, the share of their signatures, what a byte costs that comes alone, and the
memory that a long stream takes."""
import os
import sys


def machine():
    """The processor's name, and how many there are."""
    names = [line.split(":", 1)[1].strip() for line in open("/proc/cpuinfo") if line.startswith("model name")]
    return f"{names[0] if names else 'unknown processor'}, {os.cpu_count()} processors"


def rate(size, nanos):
    return f"{size * 1e3 / nanos:.1f} MB a second"


seen = [line.split() for line in open(sys.argv[1])]
if any(len(word) > 20 for row in seen for word in row):
    sys.exit("a message was lost, or a signature refused")
print(machine())
for name, *words in seen:
    if name == "row":
        payload, messages, frames, piece, size, carried, verified, plain = map(int, words)
        print(f"payloads of {payload}, {messages} a frame, frames {frames}, {size} bytes in pieces of {min(piece, size)}: "
              f"{carried / 1e6:.2f} ms, {rate(size, carried)}, {frames * messages * 1e9 / carried:.0f} messages a second; "
              f"signatures alone {verified / 1e6:.2f} ms, {100 * verified / carried:.0f} %, the rest {(carried - verified) / size:.2f} ns "
              f"a byte; plain hashing {rate(size, plain)}")
    if name == "long":
        kind = words[0]
        size, frames, times, spent, before, after = map(int, words[1:])
        if frames != times:
            sys.exit("a frame was lost")
        kept = size if kind == "carried" else 0
        print(f"a stream of {size} bytes, {kind} in pieces of 4096: {spent / 1e6:.0f} ms, {rate(size, spent)}; memory "
              f"{(after - before) * 1024 - kept} bytes more{' beside the bytes that arrived' if kept else ''}")
    if name == "endless":
        kind, count, spent, broken = words
        print(f"a {kind} that never ends, {count} bytes one by one: {int(spent) / 1e6:.2f} ms, {int(spent) / int(count):.1f} ns a byte"
              f"{', broken' if broken == 'true' else ''}")
