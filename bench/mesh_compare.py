#!/usr/bin/env python3
"""Runs random documents in threads, and compares what is printed with the run that the printed events make.

    mesh_compare.py OURS REFERENCE SEED COUNT [--times N] [--workers N] [--seconds N]

Each document, without its events, is run as `OURS mesh`, so many times (default: 3), some of them at once. Each time the events that
are listed are put into the document, and both `OURS sim` and `REFERENCE sim` have to print the text that stands below them. Besides,
there may not be more events than the budget, and where there are fewer, `REFERENCE sim` of the document with one event more of each
process, lane and connection has to print the same text: nothing is left to do. A document that lists events has to be refused with
code 13. The end is how many events there were, and how many documents answered the same each time. With --seconds no document is
begun after so long.
"""
import json
import os
import subprocess
import sys
import tempfile
import time
from concurrent.futures import ThreadPoolExecutor

import records
from runs_compare import document_of, option

# The code of a document that lists events where it may not.
LISTED = 13


def answer(program, word, document):
    """What `program word` answers to the document: its status, output and complaint."""
    with tempfile.TemporaryDirectory() as folder:
        done = subprocess.run([program, word], input=json.dumps(document).encode(), capture_output=True, cwd=folder)
    return done.returncode, done.stdout, done.stderr


def event_of(line):
    """An event as a document lists it."""
    words = line.split(" ")
    if words[0] in ("step", "frame", "tick"):
        return [words[0], words[1], int(words[2])]
    return [words[0]] + [int(word) for word in words[1:]]


def parts(output):
    """The events that were listed, and the text below them."""
    lines = output.decode("utf-8").split("\n")
    count = int(lines[0].split(" ")[1])
    if not lines[0].startswith("mesh "):
        raise ValueError(lines[0])
    return [event_of(line) for line in lines[1:count + 1]], "\n".join(lines[count + 1:]).encode()


def work_left(document):
    """One event more of each process, lane and connection."""
    hosts = document["hosts"]
    events, conns = [], len(document.get("links", ()))
    for host in hosts:
        events += [["step", host["name"], place] for place in range(len(host.get("procs", ())))]
        events += [["frame", host["name"], place + 1] for place in range(len(host.get("lanes", ())))]
        conns += len(host.get("lanes", ()))
    for conn in range(conns):
        events += [["arrive", conn, 2 ** 63], ["accept", conn], ["deliver", conn]]
    return events


def judged(ours, reference, document, output):
    """What is wrong with an output of `mesh`, or nothing."""
    try:
        events, text = parts(output)
    except (ValueError, IndexError) as error:
        return f"no form: {error}", 0
    budget = document.get("budget", 1000)
    if len(events) > budget:
        return f"{len(events)} events, and a budget of {budget}", len(events)
    scripted = dict(document, events=events)
    for program in (ours, reference):
        status, printed, _ = answer(program, "sim", scripted)
        if status != 0 or printed != text:
            return f"{os.path.basename(program)} sim with these events: status {status}, another text", len(events)
    if len(events) < budget:
        status, printed, _ = answer(reference, "sim", dict(document, events=events + work_left(document)))
        if status != 0 or printed != text:
            return f"something is left to do after {len(events)} events", len(events)
    return "", len(events)


def main():
    words = sys.argv[1:]
    times = int(option(words, "--times", 3))
    workers = int(option(words, "--workers", os.cpu_count()))
    latest = time.monotonic() + float(option(words, "--seconds", records.FOREVER))
    if len(words) != 4:
        sys.exit(__doc__)
    ours, reference = os.path.abspath(words[0]), os.path.abspath(words[1])
    seed, count = int(words[2]), int(words[3])

    def one(number):
        if time.monotonic() > latest:
            return None
        document = document_of(seed * 1000003 + number)
        if "events" in document:
            status, _, complaint = answer(ours, "mesh", document)
            if status != 5 or complaint.split(b" ")[1:3] != [b"document", b"%d" % LISTED]:
                return number, f"a document with events: status {status}, {complaint}", 0, True
            del document["events"]
        outputs = {answer(ours, "mesh", document) for _ in range(times)}
        for status, output, complaint in outputs:
            wrong, events = (f"status {status}: {complaint}", 0) if status != 0 else judged(ours, reference, document, output)
            if wrong:
                return number, wrong, events, False
        return number, "", events, len(outputs) == 1

    with ThreadPoolExecutor(workers) as pool:
        seen = [found for found in pool.map(one, range(count)) if found is not None]
    wrong = [found for found in seen if found[1]]
    for number, what, _, _ in wrong:
        print(f"document {number} of seed {seed}: {what}")
    print(f"{len(seen)} documents from seed {seed}, {times} times each: {len(wrong)} wrong, {sum(found[2] for found in seen)} events, "
          f"{sum(found[3] for found in seen)} the same each time")
    sys.exit(1 if wrong else 0)


if __name__ == "__main__":
    main()
