#!/usr/bin/env python3
"""Times the runs in threads of one document on 1, 2 and 4 processors, beside `sim` of the same document.

    mesh.py PROGRAM [HOSTS] [MESSAGES] [TYPES]

The document has so many hosts in a ring (default: 4), each with two lanes to the next two hosts, and on each lane so many messages
(default: 16, which is a frame); the types of all keys are TYPES (default: 5.4). Each time is the least of five, in seconds.
"""
import json
import os
import subprocess
import sys
import time


def document(hosts, messages, types):
    names = [f"h{place}" for place in range(hosts)]
    made = []
    for place, name in enumerate(names):
        script = []
        for number in range(messages):
            for step in (1, 2):
                script += [["set", "r0", f"{number}"], ["send", names[(place + step) % hosts], step, "r0", [], [], []]]
        made.append({
            "name": name, "seed": f"{place + 1:02x}" * 32, "identity": types, "lanekey": types, "address": f"127.0.0.1:{7001 + place}",
            "procs": [{"script": script}],
            "boxes": [{"slot": step, "proc": 0, "label": [], "room": messages} for step in (1, 2)],
            "lanes": [{"to": names[(place + step) % hosts], "label": [], "room": messages} for step in (1, 2)],
        })
    return json.dumps({"version": 1, "hosts": made, "budget": 20000}).encode()


def timed(program, word, text, processors):
    """The least time of five, and what was printed."""
    least, printed = None, b""
    for _ in range(5):
        start = time.perf_counter()
        done = subprocess.run([program, word], input=text, capture_output=True, preexec_fn=lambda: os.sched_setaffinity(0, processors))
        spent = time.perf_counter() - start
        if done.returncode != 0:
            sys.exit(f"{word}: status {done.returncode}: {done.stderr.decode()}")
        least, printed = spent if least is None else min(least, spent), done.stdout
    return least, printed


def main():
    words = sys.argv[1:]
    if not 1 <= len(words) <= 4:
        sys.exit(__doc__)
    program = os.path.abspath(words[0])
    hosts = int(words[1]) if len(words) > 1 else 4
    messages = int(words[2]) if len(words) > 2 else 16
    types = words[3] if len(words) > 3 else "5.4"
    text = document(hosts, messages, types)
    there = sorted(os.sched_getaffinity(0))
    alone, _ = timed(program, "sim", text, set(there[:1]))
    print(f"{hosts} hosts, {2 * hosts} lanes of {messages} messages, types {types}: sim {alone:.3f} s")
    first = None
    for count in (1, 2, 4):
        if count > len(there):
            break
        spent, printed = timed(program, "mesh", text, set(there[:count]))
        first = first or spent
        print(f"mesh on {count}: {spent:.3f} s, {first / spent:.2f} times as fast as on 1, {alone / spent:.2f} times as fast as sim; "
              f"{printed.split(bytes([10]))[0].decode()}")


if __name__ == "__main__":
    main()
