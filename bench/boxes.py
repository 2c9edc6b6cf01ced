#!/usr/bin/env python3
"""Prints what the timed program saw: what a message costs that is put into a mailbox and taken out again."""
import os
import sys


def machine():
    """The processor's name, and how many there are."""
    names = [line.split(":", 1)[1].strip() for line in open("/proc/cpuinfo") if line.startswith("model name")]
    return f"{names[0] if names else 'unknown processor'}, {os.cpu_count()} processors"


seen = [line.split() for line in open(sys.argv[1])]
if any(len(word) > 20 for row in seen for word in row):
    sys.exit("a message was lost")
print(machine())
for name, *words in seen:
    if name == "row":
        room, times, spent = map(int, words)
        print(f"a room of {room}, filled and drained {times} times: {spent / 1e6:.1f} ms, {spent / (room * times):.0f} ns a message")
