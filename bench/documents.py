#!/usr/bin/env python3
"""Writes the two documents that the benchmark runs: one of 15 MB, one that makes 20,000 events."""
import json
import sys

SEED = "01" * 32


def large():
    text = "x" * 7300
    script = []
    for _ in range(2048):
        script.append(["set", "r0", text])
        script.append(["print", "r0"])
    return {"version": 1, "budget": 20000, "hosts": [{"name": "a", "seed": SEED, "procs": [{"script": script}]}]}


def busy():
    send = ["send", "a", 1, "r0", [], [], []]
    sender = [["set", "r0", "ping"], send, ["jump", 1]]
    taker = [["take", "r0", 1], ["print", "r0"], ["jump", 0]]
    return {"version": 1, "budget": 20000, "hosts": [{
        "name": "a", "seed": SEED, "boxes": [{"slot": 1, "proc": 1, "room": 256}],
        "procs": [{"script": sender}, {"script": taker}]}]}


if __name__ == "__main__":
    folder = sys.argv[1]
    for name, document in (("large", large()), ("busy", busy())):
        with open(f"{folder}/{name}.json", "w") as out:
            json.dump(document, out, separators=(",", ":"))
