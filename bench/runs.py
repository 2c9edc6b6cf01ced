#!/usr/bin/env python3
"""Times `sim` on documents of several sizes, on messages that are carried end to end and on a long run of eight hosts, and
measures the memory of large documents, valid and refused.

    runs.py [--rounds N] NAME=PROGRAM..

A name may be followed by settings, as in NAME,VARIABLE=VALUE=PROGRAM. Of each measurement the programs take turns, and
a time is the least of all rounds, in processor time, so that other work on the machine shows little. Prints tables.
"""
import json
import os
import subprocess
import sys
import tempfile

FOREVER = 2**64 - 1
MB = 1_000_000
SECRETS = [("%02x" % value) * 32 for value in range(1, 17)]


# DOCUMENTS

def spelt(document):
    return json.dumps(document, separators=(",", ":")).encode()


def host(name, place, **members):
    return {"name": name, "seed": SECRETS[place], "identity": "5.3", "lanekey": "5.3", "address": "x", **members}


def texts(size):
    """Scripts of sets of long texts."""
    one = ["set", "r0", "x" * 7300]
    count = size // (len(spelt(one)) + 1)
    return spelt({"version": 1, "hosts": [host("a", 0, procs=[
        {"script": [one] * min(4096, count - start)} for start in range(0, count, 4096)])], "events": []})


def operations(size):
    """Scripts of short operations of all kinds, over several hosts."""
    mixed = [["set", "r0", "hello"], ["send", "a", 1, "r0", ["a.0.0.s"], [], []], ["take", "r1", 1], ["join", "r2", "r0", "r1"],
             ["ifeq", "r1", "r2", 7], ["print", "r2"], ["label", ["a.0.0.s", "a.0.0.i"]], ["map", "a.0.0.i"]]
    script = mixed * 512
    length = len(spelt(script)) + 14
    count, hosts = max(1, size // length), []
    while count > 0:
        procs = [{"made": 1, "script": script}] + [{"script": script}] * (min(count, 32) - 1)
        hosts.append(host("abcdefghijklmnop"[len(hosts)], len(hosts), procs=procs))
        count -= 32
    return spelt({"version": 1, "hosts": hosts, "events": []})


def carried(frames, messages):
    """Messages of 16 bytes from a to b, so many in each frame, each taken there."""
    count = frames * messages
    send = ["send", "b", 1, "r0", [], [], []]
    document = {"version": 1, "hosts": [
        host("a", 0, lanekey="6.3", lanes=[{"to": "b", "room": 256}], procs=[{"script": [["set", "r0", "0123456789abcdef"]] + [send] * count}]),
        host("b", 1, boxes=[{"slot": 1, "proc": 0, "room": 256}], procs=[{"script": [["take", "r0", 1]] * count}])]}
    events = [["step", "a", 0]]
    for frame in range(frames):
        events += [["step", "a", 0]] * (2 * messages) + [["frame", "a", 1]] * 2 + [["arrive", 0, FOREVER]]
        events += [["accept", 0]] * (2 if frame == 0 else 1) + [["deliver", 0]] * (2 * messages) + [["step", "b", 0]] * messages
    return spelt({**document, "events": events}), spelt({**document, "events": []})


def ring(budget):
    """Eight hosts in a ring, each of which sends to the next and takes what comes, by the canonical schedule."""
    names, hosts = "abcdefgh", []
    for place, name in enumerate(names):
        after = names[(place + 1) % 8]
        sender = [["set", "r0", "round and round"], ["send", after, 1, "r0", [], [], []], ["jump", 1]]
        taker = [["take", "r0", 1], ["print", "r0"], ["jump", 0]]
        hosts.append(host(name, place, lanekey="6.3", lanes=[{"to": after, "room": 256}], procs=[{"script": sender}, {"script": taker}],
                          boxes=[{"slot": 1, "proc": 1, "room": 256}]))
    return spelt({"version": 1, "budget": budget, "hosts": hosts})


def filled(size, before, item, after, between=b","):
    """As many items as fit, in a frame."""
    count = (size - len(before) - len(after)) // (len(item) + len(between))
    return before + between.join([item] * count) + after


def refused(size):
    """Documents that are refused, of many kinds."""
    deep = b"[" * 100 + b"]" * 100
    yield "objects of one member", filled(size, b'{"version":1,"hosts":[', b'{"a":0}', b"]}")
    yield "hosts that lack all but a name", filled(size, b'{"version":1,"hosts":[', b'{"name":"a"}', b"]}")
    yield "hosts of one name and seed", filled(size, b'{"version":1,"hosts":[', spelt({"name": "a", "seed": SECRETS[0]}), b"]}")
    yield "empty lists", filled(size, b'{"version":1,"hosts":[', b"[]", b"]}")
    yield "zeros", filled(size, b"[", b"0", b"]")
    yield "empty texts", filled(size, b"[", b'""', b"]")
    yield "lists a hundred deep", filled(size, b"[", deep, b"]")
    yield "events without a word", filled(size, b'{"version":1,"hosts":[],"events":[', b"[]", b"]}")
    yield "operations without a word", filled(size, b'{"version":1,"hosts":[{"name":"a","seed":"' + SECRETS[0].encode()
                                              + b'","procs":[{"script":[', b"[]", b"]}]}]}")
    yield "categories of one map", filled(size, b'{"version":1,"hosts":[{"name":"a","seed":"' + SECRETS[0].encode()
                                          + b'","map":[', b'"b.0.0.s"', b"]}]}")
    wide = b",".join(b'"%x":0' % place for place in range(size // 10))[:size - 20]
    yield "members of one object", b"{" + wide[:wide.rfind(b",")] + b"}"
    yield "escapes", filled(size, b'{"version":1,"hosts":"', b"\\u00e9", b'"}', b"")
    yield "spaces", b" " * size
    yield "an open list", b"[" * 100 + b" " * (size - 100)


# MEASURING

# Run by an interpreter of its own, so that a program's peak memory isn't that of this script.
ALONE = """
import os, sys
child = os.fork()
if child == 0:
    os.dup2(os.open(sys.argv[2], os.O_RDONLY), 0)
    os.dup2(os.open(os.devnull, os.O_WRONLY), 1)
    os.dup2(1, 2)
    os.execv(sys.argv[1], [sys.argv[1], "sim"])
_, status, used = os.wait4(child, 0)
print(used.ru_utime + used.ru_stime, used.ru_maxrss, os.waitstatus_to_exitcode(status))
"""


class Program:
    """A program with settings of its own."""

    def __init__(self, word):
        left, self.path = word.rsplit("=", 1)
        self.name, *settings = left.split(",")
        self.settings = dict(setting.split("=") for setting in settings)
        self.path = os.path.abspath(self.path)

    def run(self, path):
        """Runs `sim` on a file: seconds of processor time, peak memory in MB, and the status."""
        done = subprocess.run([sys.executable, "-S", "-E", "-c", ALONE, self.path, path], capture_output=True, check=True,
                              env={**os.environ, **self.settings})
        seconds, memory, status = done.stdout.split()
        return float(seconds), int(memory) * 1024 / MB, int(status)


class Bench:
    def __init__(self, programs, rounds, folder):
        self.programs, self.rounds, self.folder = programs, rounds, folder

    def measure(self, documents, status, rounds=None):
        """The least seconds and the memory of each program on each document; every answer has this status."""
        paths = []
        for place, document in enumerate(documents):
            paths.append(os.path.join(self.folder, f"{place}.json"))
            with open(paths[-1], "wb") as file:
                file.write(document)
        least = {program.name: [[1e9, 0] for _ in documents] for program in self.programs}
        for _ in range(rounds or self.rounds):
            for place, path in enumerate(paths):
                for program in self.programs:
                    seconds, memory, seen = program.run(path)
                    if seen != status:
                        sys.exit(f"{program.name} ends with {seen} where {status} was expected, on {len(documents[place])} bytes")
                    best = least[program.name][place]
                    best[0], best[1] = min(best[0], seconds), max(best[1], memory)
        return least

    def row(self, title, cells):
        print(f"| {title} | " + " | ".join(cells) + " |", flush=True)

    def table(self, *titles):
        print("\n| " + " | ".join(titles) + " |\n" + "|---" * len(titles) + "|", flush=True)


def machine():
    names = [line.split(":", 1)[1].strip() for line in open("/proc/cpuinfo") if line.startswith("model name")]
    return f"{names[0] if names else 'unknown processor'}, {os.cpu_count()} processors, load {os.getloadavg()[0]:.1f}"


def main():
    words = sys.argv[1:]
    rounds = 5
    if words[:1] == ["--rounds"]:
        rounds, words = int(words[1]), words[2:]
    if not words or any("=" not in word for word in words):
        sys.exit(__doc__)
    programs = [Program(word) for word in words]
    names = [program.name for program in programs]
    print(machine())
    with tempfile.TemporaryDirectory() as folder:
        bench = Bench(programs, rounds, folder)

        bench.table("documents read", "bytes", *names, *(f"{name}, memory" for name in names))
        empty = bench.measure([texts(8000)], 0)
        for title, make in (("long texts", texts), ("short operations", operations)):
            documents = [make(size * MB) for size in (1, 4, 16)]
            seen = bench.measure(documents, 0)
            for place, document in enumerate(documents):
                bench.row(title, [f"{len(document):,}"]
                          + [f"{seen[name][place][0] * 1000:.0f} ms, {len(document) / MB / max(1e-9, seen[name][place][0] - empty[name][0][0]):.0f} MB/s"
                             for name in names] + [f"{seen[name][place][1]:.0f} MB" for name in names])

        bench.table("messages of 16 bytes, end to end", "messages", *names)
        for title, frames, messages in (("one a frame", 60, 1), ("one a frame", 250, 1), ("one a frame", 1000, 1),
                                        ("sixteen a frame", 14, 16), ("sixteen a frame", 58, 16), ("sixteen a frame", 230, 16)):
            seen = bench.measure(carried(frames, messages), 0)
            count = frames * messages
            cells = []
            for name in names:
                spent = seen[name][0][0] - seen[name][1][0]
                cells.append(f"{spent * 1000:.0f} ms, {count / max(1e-9, spent):,.0f} a second")
            bench.row(title, [f"{count:,}"] + cells)

        bench.table("a run of eight hosts", "events", *names, *(f"{name}, memory" for name in names))
        documents = [ring(1), ring(5000), ring(10000), ring(20000)]
        seen = bench.measure(documents, 0)
        bench.row("making the keys", ["1"] + [f"{seen[name][0][0] * 1000:.0f} ms" for name in names]
                  + [f"{seen[name][0][1]:.0f} MB" for name in names])
        for place, events in ((1, 5000), (2, 10000), (3, 20000)):
            bench.row("besides", [f"{events:,}"] + [f"{(seen[name][place][0] - seen[name][0][0]) * 1000:.0f} ms" for name in names]
                      + [f"{seen[name][place][1]:.0f} MB" for name in names])

        bench.table("refused documents", "bytes", *names, *(f"{name}, memory" for name in names))
        for title, document in refused(16 * MB):
            seen = bench.measure([document], 5, 1)
            bench.row(title, [f"{len(document):,}"] + [f"{seen[name][0][0] * 1000:.0f} ms" for name in names]
                      + [f"{seen[name][0][1]:.0f} MB" for name in names])
        for size in (4, 8, 16):
            title, document = next(refused(size * MB))
            seen = bench.measure([document], 5)
            bench.row(f"{title}, growth", [f"{len(document):,}"] + [f"{seen[name][0][0] * 1000:.0f} ms" for name in names]
                      + [f"{seen[name][0][1]:.0f} MB" for name in names])


if __name__ == "__main__":
    main()
