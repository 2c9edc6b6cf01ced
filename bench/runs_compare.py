#!/usr/bin/env python3
"""Compares the texts that two programs print of random runs: valid documents of several hosts.

    runs_compare.py OURS REFERENCE SEED COUNT [--workers N] [--seconds N] [--shrink] [--keep FOLDER]

Both are run as `PROGRAM sim`, a document on standard input, and their whole answers are compared. The documents have
processes with scripts, mailboxes, lanes, inlets, links, certificates and delegations, and a list of events or none.
Outsiders write on links: copies of any connection's stream, cut ones, streams of silent hosts, and forged ones that
are signed with a running host's own keys. The end is a tally of what came up: notes, rules, entries, faults of
streams. What never came up is listed, so that it shows what was compared.

Each difference is printed at once with its number, and the document is written to FOLDER (default: here) as
differ-SEED-NUMBER.json. With --shrink a smaller document with a difference is written too, as small-SEED-NUMBER.json.
With `-` in place of OURS only the reference runs, for the tally. With --seconds no document is begun after so long.
"""
import collections
import copy
import json
import os
import random
import subprocess
import sys
import tempfile
import time
from concurrent.futures import ThreadPoolExecutor

import records

FOREVER = records.FOREVER
SECRETS = [bytes([value]) * 32 for value in range(1, 13)]
RULES = ("NotFlow GrantNotOwned ClearNotHeld NoLane NoAddress PeerNotTrusted LaneFull LaneLapsed WrongHost WrongLabel "
         "SenderNotTrusted NotKnown NoBox NotFlowToBox BoxFull NotFlowToTaker LabelRefused NotPublic NotHeld KeySpent "
         "BadCert StoreFull TableFull TooLong TooMany Stale").split()
FAULTS = ("Magic HelloCount HelloCert HelloSignature HelloReceiver NoInlet Tag Count Length SignatureCount Split Leaf "
          "Signature Body").split()
# Where each rule can show itself in a text; LaneFull and BoxFull are the entries `full`, Stale is `stale`.
ASKED = {"refused": "NotFlow GrantNotOwned ClearNotHeld NoLane NoAddress PeerNotTrusted NotKnown NoBox NotFlowToBox "
                    "NotFlowToTaker LabelRefused NotPublic NotHeld KeySpent BadCert StoreFull TableFull TooLong TooMany",
         "dropped": "NoAddress PeerNotTrusted",
         "drop": "LaneLapsed WrongHost WrongLabel SenderNotTrusted NotKnown NoBox NotFlowToBox"}
ENTRIES = ("proc print, proc sent, proc took, proc nogrant, proc label, proc newcat, proc delegated, proc mapped, "
           "proc imported, box put, box full, box took, lane queued, lane full, lane framed, conn frame, conn stale, "
           "conn pass").split(", ")


# PROGRAMS

def answer(program, document):
    """What `program sim` answers to the document, run in a folder of its own: its status, output and complaint."""
    with tempfile.TemporaryDirectory() as folder:
        done = subprocess.run([program, "sim"], input=document, capture_output=True, cwd=folder)
    return done.returncode, done.stdout, b"" if done.returncode == 0 else done.stderr


# DOCUMENTS

class Drawn:
    """One random document. `flavour` is what it aims at besides, or nothing."""

    def __init__(self, r):
        self.r = r
        self.flavour = r.choice(["", "", "", "", "", "", "", "", "", "", "outsider", "outsider", "outsider", "grants",
                                 "lanes spent", "key spent", "store full", "table full", "made many", "long",
                                 "many certs", "chain", "full", "frames", "lapses", "lapses"])
        self.names = r.sample(["a", "b", "c", "d-1", "e_2", "host", "zz", "x" * 32],
                              r.choice([1, 2, 2, 2, 3, 3, 3, 4, 5]) if self.flavour != "chain" else r.choice([4, 5, 6]))
        self.silent = {name for name in self.names[1:] if r.random() < (0.5 if self.flavour == "outsider" else 0.15)}
        if self.flavour in ("outsider", "table full", "many certs", "chain") and len(self.names) > 1:
            (self.silent.add if self.flavour in ("outsider", "table full") else self.silent.discard)(self.names[1])
        r.shuffle(self.names)
        self.running = [name for name in self.names if name not in self.silent]
        self.secrets = dict(zip(self.names, r.sample(SECRETS, len(self.names))))
        self.types = {name: r.choice(["5.3"] * 30 + ["5.4"]) for name in self.names}
        self.lane_types = {name: r.choice(["5.3"] * 30 + ["5.4"]) for name in self.names}
        if r.random() < 0.01:
            self.types[r.choice(self.names)] = "6.3"
        if r.random() < 0.01:
            self.lane_types[r.choice(self.names)] = "6.3"
        self.strange = {name: "%0112x" % r.getrandbits(448) for name in self.silent if r.random() < 0.1}
        self.made = {name: [r.choice([0, 1, 1, 2, 3]) for _ in range(r.choice([1, 1, 2, 2, 3, 0]))]
                     for name in self.running}
        if self.flavour:
            for name in self.running:
                self.made[name] = [max(1, made) for made in self.made[name]] or [1]
        if self.flavour in ("many certs",):
            self.made = {name: [40] + made[1:] for name, made in self.made.items()}
        self.universe = self.draw_universe()
        self.events = []

    def chance(self, share):
        return self.r.random() < share

    def public(self, name):
        """A host's key in bytes."""
        if name in self.strange:
            return bytes.fromhex(self.strange[name])
        return records.key(self.secrets[name], 0, self.types[name]).public

    def key(self, name):
        return records.key(self.secrets[name], 0, self.types[name])

    def draw_universe(self):
        """The few categories that the document is about."""
        r, found = self.r, []
        for name in self.names:
            if name in self.silent:
                found += [f"{name}.0.0.s", f"{name}.{r.choice([1, 1000000])}.{r.choice([3, 2147483647])}.{r.choice('si')}"]
            else:
                found += [f"{name}.{p}.{n}.{kind}" for p, made in enumerate(self.made[name])
                          for n in range(min(made, 2)) for kind in "si"]
        return r.sample(found, min(len(found), r.choice([1, 1, 2, 2, 3, 4])))

    def category(self, spelt):
        """A category of the document in bytes."""
        name, process, number, kind = spelt.split(".")
        return records.category(self.public(name), "si".index(kind), (int(process) << 32) + int(number))

    def some(self, categories, share):
        return [one for one in categories if self.chance(share)]

    def usable(self, host):
        """What labels of the host's processes and mailboxes may have."""
        return [one for one in self.universe if one.split(".")[0] == host] + self.maps.get(host, [])

    def any_category(self, host):
        """A category for an operation: mostly one of the universe, at times one that is still to be made."""
        r = self.r
        if self.universe and self.chance(0.85):
            return r.choice(self.universe)
        name = host if self.chance(0.7) else r.choice(self.names)
        if name in self.silent or not self.made[name]:
            name = host
        if name in self.silent or not self.made[name]:
            return None
        process = r.randrange(len(self.made[name]))
        return f"{name}.{process}.{self.made[name][process] + r.choice([-1, 0, 0, 1, 2**20]) if self.made[name][process] else r.choice([0, 1])}.{r.choice('si')}"

    def draw(self):
        r = self.r
        self.fill = {}
        self.maps = {name: [one for one in self.universe if one.split(".")[0] != name and self.chance(0.75)]
                     for name in self.running}
        if self.flavour == "table full":
            crowd = next(iter(self.silent), None)
            if crowd:
                host = r.choice(self.running)
                rows = r.choice([1023, 1024, 1024]) - len(self.maps[host])
                self.fill = {host: [f"{crowd}.0.{1000 + i}.s" for i in range(rows)]}
        hosts = [self.draw_host(name) for name in self.names]
        self.hosts = {host["name"]: host for host in hosts}
        self.draw_lanes()
        self.draw_inlets()
        for name in self.running:
            self.draw_scripts(name)
        document = {"version": 1, "hosts": hosts}
        self.document = document
        if self.chance(0.3):
            document["moment"] = r.choice([0, 1, 5, 9, 10, FOREVER])
        self.draw_certs()
        links = [r.choice(self.running if self.chance(0.95) else self.names)
                 for _ in range(r.choice([1, 2, 3]) if self.flavour in ("outsider", "frames") else r.choice([0, 0, 0, 1, 2]))]
        if links or self.chance(0.1):
            document["links"] = links
        self.links = links
        self.conns = [(host["name"], place, lane) for host in hosts for place, lane in enumerate(host.get("lanes", []), 1)]
        if self.chance(0.4) and self.flavour not in ("outsider", "frames") and not (links and self.chance(0.8)):
            document["budget"] = r.choice([1, 7, 50, 200, 400, 1000 if self.chance(0.2) else 300])
            if self.flavour == "lanes spent":
                document["budget"] = 700
        else:
            self.draw_events()
            document["events"] = self.events
        return document

    def draw_host(self, name):
        r = self.r
        host = {"name": name}
        if name in self.silent:
            host["key"] = self.public(name).hex()
            return host
        host["seed"] = self.secrets[name].hex() if self.chance(0.9) else self.secrets[name].hex().upper()
        host["identity"], host["lanekey"] = self.types[name], self.lane_types[name]
        for member in ("identity", "lanekey"):
            if host[member] == "6.3" and self.chance(0.5):
                del host[member]
        if self.chance(0.9):
            host["address"] = r.choice(["127.0.0.1:7001", "x", "~" * 64])
        rows = self.maps[name] + self.fill.get(name, [])
        if rows:
            host["map"] = rows + rows[:3] if self.chance(0.1) else rows
        usable, procs = self.usable(name), []
        for p, made in enumerate(self.made[name]):
            process = {"made": made} if made else {}
            label = self.some(usable, r.choice([0, 0, 0.3, 0.6]))
            own = [one for one in usable if self.chance(0.75 if one.startswith(f"{name}.{p}.") else 0.2)]
            clear = self.some(usable, 0.2)
            for member, value in (("label", label), ("own", own), ("clear", clear)):
                if value or self.chance(0.1):
                    process[member] = value
            process["script"] = []
            procs.append(process)
        if procs:
            host["procs"] = procs
            boxes = []
            for slot in r.sample([0, 1, 2, 3, 2**32 - 1], r.choice([0, 1, 1, 2, 2, 3])):
                p = r.randrange(len(procs))
                label = procs[p].get("label", []) if self.chance(0.5) else self.some(usable, r.choice([0, 0.3, 0.6]))
                box = {"slot": slot, "proc": p, "room": r.choice([1, 1, 2, 4, 256])}
                if label or self.chance(0.1):
                    box["label"] = list(label)
                boxes.append(box)
            host["boxes"] = boxes
        return host

    def draw_lanes(self):
        r = self.r
        for name in self.running:
            lanes, seen = [], set()
            for _ in range(r.choice([0, 1, 2, 2, 3]) if len(self.names) > 1 else r.choice([0, 0, 1])):
                to = r.choice(self.names)
                if to == name and self.chance(0.8):
                    continue
                wish = [host.get("label", []) for host in self.hosts[to].get("boxes", []) + self.hosts[name].get("procs", [])]
                label = list(r.choice(wish)) if wish and self.chance(0.6) else self.some(self.universe, r.choice([0, 0.3, 0.6]))
                if (to, frozenset(label)) in seen:
                    continue
                seen.add((to, frozenset(label)))
                lane = {"to": to, "room": r.choice([1, 2, 4, 16, 256])}
                if label:
                    lane["label"] = label
                if self.chance(0.15):
                    lane["until"] = r.choice([0, 5, 10, FOREVER])
                lanes.append(lane)
            if lanes:
                self.hosts[name]["lanes"] = lanes

    def draw_inlets(self):
        r = self.r
        for name in self.running:
            taken = {(host, place) for host in self.running
                     for place, lane in enumerate(self.hosts[host].get("lanes", []), 1) if lane["to"] == name}
            inlets = []
            for _ in range(r.choice([1, 2]) if self.flavour == "outsider" else r.choice([0, 0, 0, 1])):
                source = r.choice(sorted(self.silent)) if self.silent and self.chance(0.8) else r.choice(self.names)
                inlet = (source, r.choice([1, 1, 2, 3, 32]))
                if inlet not in taken:
                    taken.add(inlet)
                    inlets.append({"from": inlet[0], "lane": inlet[1]})
            if inlets:
                self.hosts[name]["inlets"] = inlets

    # SCRIPTS

    def label_for(self, host, process):
        r = self.r
        if self.chance(0.4):
            return list(process.get("label", []))
        found = {self.any_category(host) for _ in range(r.choice([0, 0, 1, 1, 2]))}
        return sorted(one for one in found if one)

    def operation(self, name, p, process):
        r = self.r
        host = self.hosts[name]
        register = lambda: f"r{r.choice([0, 0, 0, 1, 1, 2, 7])}"
        word = r.choice(["set", "set", "join", "print", "print", "send", "send", "send", "send", "send", "take", "take", "take", "take",
                         "label", "newcat", "delegate", "map", "import", "ifeq", "jump"])
        category = self.any_category(name)
        if word in ("delegate", "map") and category is None:
            word = "newcat"
        if word == "set":
            return [word, register(), r.choice(["", "hi", "é\n\\", "pay 5", "x" * 300, "\u0001"])]
        if word == "join":
            return [word, register(), register(), register()]
        if word == "print":
            return [word, register()]
        if word == "send":
            grants = [self.some(process.get("own", []), 0.25), self.some(process.get("own", []) + process.get("clear", []), 0.25)]
            if self.chance(0.08):
                grants[r.randrange(2)] = [one for one in [self.any_category(name)] if one]
            lanes = host.get("lanes", [])
            if lanes and self.chance(0.65):
                lane = r.choice(lanes)
                boxes = self.hosts[lane["to"]].get("boxes", [])
                slot = r.choice(boxes)["slot"] if boxes and self.chance(0.85) else r.choice([0, 1, 2, 3])
                label = lane.get("label", []) if self.chance(0.9) else self.label_for(name, process)
                return [word, lane["to"], slot, register(), list(label), *grants]
            to = name if self.chance(0.6) else r.choice(self.names)
            boxes = self.hosts[to].get("boxes", [])
            box = r.choice(boxes) if boxes and self.chance(0.85) else {"slot": r.choice([0, 1, 2, 3])}
            label = box.get("label", []) if self.chance(0.6) else self.label_for(name, process)
            return [word, to, box["slot"], register(), list(label), *grants]
        if word == "take":
            boxes = host.get("boxes", [])
            mine = [box for box in boxes if box["proc"] == p]
            slot = r.choice(mine)["slot"] if mine and self.chance(0.85) else r.choice([0, 1, 2, 3])
            return [word, register(), slot]
        if word == "label":
            return [word, self.label_for(name, process)]
        if word == "newcat":
            return [word, r.choice("si")]
        if word == "delegate":
            if process.get("own") and self.chance(0.7):
                category = r.choice(process["own"])
            return [word, register(), category, r.choice(self.names), r.choice([0, 0, 5]), r.choice([FOREVER, FOREVER, 10, 5])]
        if word == "map":
            return [word, category]
        if word == "import":
            return [word, register()]
        return [word]

    def draw_scripts(self, name):
        r = self.r
        for p, process in enumerate(self.hosts[name].get("procs", [])):
            size = r.choice([0, 2, 4, 6, 6, 10, 16])
            script = [self.operation(name, p, process) for _ in range(size)]
            for place, operation in enumerate(script):
                # Jumps are drawn once the length is known; most of them go on.
                target = r.randrange(place, size + 1) if self.chance(0.9) else r.randrange(size + 1)
                if operation[0] == "ifeq":
                    operation += [f"r{r.choice([0, 1])}", f"r{r.choice([0, 1, 2])}", target]
                elif operation[0] == "jump":
                    operation += [min(target, place + 1 + r.choice([0, 0, 1, 1])) if self.chance(0.8) else target]
                    operation[1] = min(operation[1], size)
            process["script"] = script
        getattr(self, "script_" + self.flavour.replace(" ", "_"), lambda name: None)(name)

    def put_script(self, name, script, p=None):
        """Gives a process of the host this script."""
        processes = self.hosts[name].get("procs")
        if processes:
            processes[self.r.randrange(len(processes)) if p is None else p]["script"] = script

    def own_process(self, name):
        return self.r.randrange(len(self.hosts[name]["procs"]))

    def script_grants(self, name):
        """A process that makes many categories and grants them to one that owns some already."""
        r, host = self.r, self.hosts[name]
        p, q = self.own_process(name), self.own_process(name)
        slot = 9
        host["boxes"] = host.get("boxes", []) + [{"slot": slot, "proc": q, "room": 4}]
        many, made = r.choice([3, 40]), self.made[name][p]
        fresh = [f"{name}.{p}.{made + i}.s" for i in range(many)]
        maker = [["newcat", "s"]] * many
        own, clear = r.choice([(fresh, []), ([], fresh), (fresh, fresh), (fresh[:1], fresh[1:])])
        maker += [["send", name, slot, "r0", [], own, clear], ["label", r.sample(fresh, min(2, many))]]
        taker = [["newcat", r.choice("si")]] * r.choice([0, 2, 40]) + [["take", "r1", slot], ["print", "r1"]]
        if p == q:
            maker, taker = maker + taker, None
        self.put_script(name, maker, p)
        if taker:
            self.put_script(name, taker, q)

    def script_lanes_spent(self, name):
        host = self.hosts[name]
        if not host.get("lanes"):
            return
        lane = self.r.choice(host["lanes"])
        boxes = self.hosts[lane["to"]].get("boxes", [])
        slot = self.r.choice(boxes)["slot"] if boxes else 1
        lane["room"] = self.r.choice([1, 2])
        loop = [["set", "r0", "tick"], ["send", lane["to"], slot, "r0", list(lane.get("label", [])), [], []], ["jump", 1]]
        self.put_script(name, loop)

    def script_key_spent(self, name):
        host = self.hosts[name]
        p = self.own_process(name)
        own = host["procs"][p].get("own")
        if not own:
            return
        loop = [["delegate", "r0", self.r.choice(own), self.r.choice(self.names), 0, FOREVER]] * self.r.choice([30, 36])
        self.put_script(name, loop, p)

    def script_store_full(self, name):
        host = self.hosts[name]
        p = self.own_process(name)
        own = host["procs"][p].get("own")
        if own:
            self.put_script(name, [["delegate", "r0", self.r.choice(own), self.r.choice(self.names), 0, FOREVER],
                                   ["import", "r0"], ["delegate", "r1", self.r.choice(own), self.r.choice(self.names), 0, 9],
                                   ["import", "r1"]], p)

    def script_table_full(self, name):
        crowd = next(iter(self.silent), None)
        if crowd:
            self.put_script(name, [["map", f"{crowd}.0.{n}.s"] for n in (1, 1000, 2)]
                            + [["map", f"{name}.0.0.s"]] * (1 if self.made[name] else 0))

    def script_made_many(self, name):
        kinds = [self.r.choice("si") for _ in range(self.r.choice([60, 66]))]
        self.put_script(name, [["newcat", kind] for kind in kinds] + [["label", self.label_for(name, {})]])

    def script_long(self, name):
        r = self.r
        boxes = self.hosts[name].get("boxes", [])
        sends = [["send", name, r.choice(boxes)["slot"], "r1", [], [], []]] if boxes else []
        self.put_script(name, [["set", "r0", "y" * r.choice([8192, 8191, 16383, 16384])], ["join", "r1", "r0", "r0"],
                               ["set", "r2", "z"], ["join", "r1", "r0", "r2"], ["join", "r3", "r1", "r2"], ["print", "r3"]] + sends)

    def script_many_certs(self, name):
        """Many integrity categories of another host, each by a chain of its own."""
        r, host = self.r, self.hosts[name]
        sources = [lane for lane in host.get("lanes", []) if lane["to"] in self.running]
        if not sources:
            return
        lane = r.choice(sources)
        maker = r.choice(self.running)
        count = r.choice([3, 15, 16, 17, 18])
        those = [f"{maker}.0.{i}.i" for i in range(20, 20 + count)]
        self.asked = getattr(self, "asked", []) + [(maker, name, those)]
        p = self.own_process(name)
        host["procs"][p]["own"] = host["procs"][p].get("own", []) + those
        for other in (name, lane["to"]):
            if other != maker:
                mapped = self.hosts[other].setdefault("map", [])
                mapped += [one for one in those if one not in mapped]
        boxes = self.hosts[lane["to"]].get("boxes", [])
        slot = r.choice(boxes)["slot"] if boxes else 1
        label = list(lane.get("label", []))
        forms = [(label + those if self.chance(0.3) else label, those, []), (label, [], those), (label, those[:2], those[2:])]
        label, own, clear = r.choice(forms)
        if label != lane.get("label", []):
            lane["label"] = label
        self.put_script(name, [["set", "r0", "granted"], ["send", lane["to"], slot, "r0", label, own, clear]], p)

    def script_full(self, name):
        """More messages than rooms, at once, and frames of many messages."""
        r, host = self.r, self.hosts[name]
        script = [["set", "r0", "m"]]
        for _ in range(r.choice([5, 20, 40])):
            lanes = host.get("lanes", [])
            if lanes:
                lane = lanes[0]
                lane["room"] = r.choice([4, 16, 256])
                boxes = self.hosts[lane["to"]].get("boxes", [])
                slot = boxes[0]["slot"] if boxes else 1
                script.append(["send", lane["to"], slot, "r0", list(lane.get("label", [])), [], []])
        self.put_script(name, script)

    def script_lapses(self, name):
        """Sends under a lane's label, by a process that doesn't own it, to be framed when delegations have lapsed."""
        r, host = self.r, self.hosts[name]
        lanes = [lane for lane in host.get("lanes", []) if lane["to"] != name]
        if not lanes:
            return
        lane, p = r.choice(lanes), self.own_process(name)
        if not lane.get("label"):
            secret = [one for one in self.usable(name) if one.endswith("s")]
            if not secret or any(other.get("label") == secret[:1] and other["to"] == lane["to"] for other in host["lanes"]):
                return
            lane["label"] = secret[:1]
        boxes = self.hosts[lane["to"]].get("boxes", [])
        slot = r.choice(boxes)["slot"] if boxes else 1
        sends = [["send", lane["to"], slot, "r0", list(lane["label"]), [], []]] * r.choice([1, 2, 5])
        self.put_script(name, [["set", "r0", "late"]] + sends, p)
        self.late = getattr(self, "late", []) + [(name, p, host["lanes"].index(lane) + 1)]

    # CERTIFICATES

    def draw_certs(self):
        r = self.r
        certs, signs = [], collections.Counter()
        leaves = {name: 1024 if self.types[name].startswith("6") else 32 for name in self.running}
        for name in self.running:
            host = self.hosts[name]
            signs[name] = len(host.get("lanes", [])) + ("address" in host)

        def at():
            return list(self.running) if self.chance(0.6) else self.some(self.names, 0.5)

        def by(name, category, to, start=0, until=FOREVER):
            if signs[name] < leaves[name]:
                signs[name] += 1
                certs.append({"by": name, "cat": category, "to": to, "from": start, "until": until, "at": at()})

        def moments():
            if self.flavour == "lapses":
                return r.choice([(0, 5), (0, 10), (0, 10), (0, FOREVER)])
            return r.choice([(0, FOREVER)] * 5 + [(0, 10), (5, 10), (5, FOREVER), (10, 5), (0, 5)])

        for category in self.universe:
            creator = category.split(".")[0]
            here = creator
            for to in r.sample(self.names, r.randrange(len(self.names) + 1)):
                if here in self.running:
                    by(here, category, to, *moments())
                else:
                    certs.append({"hex": self.spelt_delegation(here, category, to, *moments()), "at": at()})
                if self.chance(0.5) or self.flavour == "chain":
                    here = to
        for maker, to, those in getattr(self, "asked", []):
            for one in those:
                by(maker, one, to)
        for _ in range(r.choice([0, 0, 0, 1, 2])):
            certs.append({"hex": self.any_cert().hex(), "at": at()})
        if self.flavour == "key spent":
            for name in self.running:
                for _ in range(r.choice([20, 31])):
                    by(name, r.choice(self.universe or [f"{name}.0.0.s"]), r.choice(self.names), 0, r.choice([5, 10]))
        if self.flavour == "store full":
            # The document has at most 256; those of hosts that sign at setup count too.
            host = r.choice(self.running)
            spelt = [records.delegation(records.category(bytes(56), 0, i), bytes(56), bytes(56), b"").hex()
                     for i in range(256 - len(certs))]
            certs += [{"hex": one, "at": [host]} for one in spelt]
            for cert in certs:
                if host not in cert["at"] and self.chance(0.9):
                    cert["at"].append(host)
        r.shuffle(certs)
        if certs:
            self.document["certs"] = certs[:256]

    def spelt_delegation(self, by, category, to, start=0, until=FOREVER):
        """A delegation in hex, good where the host has a secret."""
        sign = (lambda part: self.key(by).sign(self.r.randrange(32), part)) if by not in self.strange else b"strange"
        return records.delegation(self.category(category), self.public(to), self.public(by), sign, start, until).hex()

    def any_cert(self):
        """A delegation or an address certificate, good or not, of any host or of nobody."""
        r = self.r
        by, to = r.choice(self.names), r.choice(self.names)
        if self.chance(0.3):
            key = self.public(by) if self.chance(0.8) else bytes(56)
            sign = (lambda part: self.key(by).sign(r.randrange(32), part)) if self.chance(0.6) else bytes(r.choice([0, 4, 40]))
            return records.address(key, b"elsewhere", sign, 0, r.choice([FOREVER, 10]))
        category = self.category(r.choice(self.universe)) if self.universe and self.chance(0.7) else records.category(bytes(56), 0, 7)
        sign = (lambda part: self.key(by).sign(r.randrange(32), part)) if self.chance(0.7) else bytes(r.choice([0, 4, 40]))
        return records.delegation(category, self.public(to), self.public(by), sign, 0, r.choice([FOREVER, 10]))

    # EVENTS

    def draw_events(self):
        r, out = self.r, self.events
        lanes = len(self.conns)
        total = lanes + len(self.links)
        walkers = [(name, p) for name in self.running for p in range(len(self.hosts[name].get("procs", [])))]
        moments = [1, 4, 5, 9, 10, 11, FOREVER - 1, FOREVER] if self.chance(0.2) else [1, 4, 5, 6]
        for _ in range(r.choice([2, 6, 12, 25, 25])):
            act = r.random()
            if act < 0.3 and walkers:
                name, p = r.choice(walkers)
                out += [["step", name, p]] * r.choice([1, 3, 6, 12])
            elif act < 0.42:
                for name, p in walkers:
                    out += [["step", name, p]] * r.choice([2, 8])
            elif act < 0.68 and lanes:
                which = r.sample(range(lanes), r.choice([1, lanes]))
                for k in which:
                    self.carry(k)
            elif act < 0.74:
                out.append(["tick", r.choice(self.names), r.choice(moments)])
            elif act < 0.84 and self.links:
                self.copied(r.randrange(lanes, total))
            elif self.links:
                self.written(r.randrange(lanes, total))
            elif total:
                k = r.randrange(total)
                out.append(r.choice([["accept", k], ["deliver", k], ["arrive", k, r.choice([0, 1, 2500, 5000])]]))
        if self.flavour == "lanes spent":
            for _ in range(35):
                for name, p in walkers:
                    out += [["step", name, p]] * 3
                for name, place, _ in self.conns:
                    out += [["frame", name, place]] * 2
        if self.flavour in ("full", "many certs", "long", "grants", "made many", "key spent", "store full", "table full"):
            for name, p in walkers:
                out += [["step", name, p]] * r.choice([8, 70])
            for k in range(lanes):
                self.carry(k)
        for name, p, place in getattr(self, "late", []):
            out += [["step", name, p]] * r.choice([3, 12]) + [["frame", name, place]] * r.choice([0, 1])
            out += [["tick", name, r.choice([5, 10])]] * r.choice([0, 1, 1]) + [["frame", name, place]] * 2
        if self.flavour == "frames" and lanes and self.links:
            self.frames_apart()
        for name, p in walkers:
            out += [["step", name, p]] * 2
        del out[20000:]

    def carry(self, k):
        """A lane's messages on their way: all of it, or a part."""
        r, out = self.r, self.events
        name, place, _ = self.conns[k]
        out += [["frame", name, place]] * r.choice([1, 2, 2, 2, 4])
        self.taken(k, r.choice([2**40, 2**40, 1, 2500, 2611, 5000, 5002]))

    def taken(self, k, count):
        """Bytes that arrive at a connection, and what is done with them."""
        r, out = self.r, self.events
        out.append(["arrive", k, count])
        for _ in range(r.choice([1, 2, 2, 3])):
            out.append(["accept", k])
            out += [["deliver", k]] * r.choice([0, 1, 2, 2, 4, 8])

    def hello_length(self, k):
        name, _, lane = self.conns[k]
        signature = {"5.3": 2348, "5.4": 1292, "6.3": 2508, "6.4": 1452}[self.types[name]]
        return 6 + 1 + 56 + 4 + 56 + 1 + 65 * len(set(lane.get("label", []))) + 56 + 16 + 2 + signature

    def copied(self, link):
        """A part of any connection's stream, on a link."""
        r = self.r
        j = r.randrange(len(self.conns) + len(self.links))
        cuts = [0, 1, 3, r.randrange(8000)]
        if j < len(self.conns):
            hello = self.hello_length(j)
            cuts += [0, 0, 0, hello, hello, hello + 2439, hello + 2441]
        start, until = r.choice(cuts), r.choice(cuts + [10**6] * 6 + [FOREVER])
        self.events.append(["copy", link, j, start, until])
        self.taken(link, r.choice([2**40, 2**40, 2**40, 5, 2611]))

    def frames_apart(self):
        """The frames of a lane on a link, out of order and again, after its hello."""
        r, out = self.r, self.events
        j = r.randrange(len(self.conns))
        name, place, lane = self.conns[j]
        link = len(self.conns) + r.randrange(len(self.links))
        hello = self.hello_length(j)
        for p in range(len(self.hosts[name].get("procs", []))):
            for _ in range(6):
                out += [["step", name, p]] * 4 + [["frame", name, place]] * 2
        # The first frame of one message without certificates, of each length of a payload that scripts have.
        length = 11 + 4 + 1 + 56 + 4 + 65 * len(set(lane.get("label", []))) + 3 + 1 + 4 + r.choice([0, 2, 4, 5]) + 2
        length += {"5.3": 2348, "5.4": 1292, "6.3": 2508, "6.4": 1452}[self.lane_types[name]]
        out.append(["copy", link, j, 0, hello])
        for _ in range(r.choice([1, 2, 3])):
            i = r.randrange(3)
            out.append(["copy", link, j, hello + i * length, hello + (i + 1) * length])
            self.taken(link, 2**40)

    # OUTSIDERS

    def written(self, link):
        """Bytes of an outsider on a link: a stream of a silent host, or a forged one, at times with a fault."""
        r = self.r
        receiver = self.links[link - len(self.conns)]
        if self.chance(0.15):
            bytes_ = r.choice([b"", b"\x00\xff", b"DSX1", b"DSX1\x00\x00", b"DSX2", b"DSX1\x1a\xcc\x03", b"DSX1\x1a\xcd", b"DSX1\x00\x05hello"])
        else:
            bytes_ = self.stream(receiver)
        pieces = [bytes_]
        if self.chance(0.2) and bytes_:
            cut = r.randrange(len(bytes_))
            pieces = [bytes_[:cut], bytes_[cut:]] if self.chance(0.6) else [bytes_[:cut]]
        if self.chance(0.05) and bytes_:
            place = r.randrange(len(bytes_))
            pieces = [bytes_[:place] + bytes([bytes_[place] ^ (1 << r.randrange(8))]) + bytes_[place + 1:]]
        for piece in pieces:
            spelt = piece.hex()
            self.events.append(["inject", link, spelt.upper() if self.chance(0.05) else spelt])
            if self.chance(0.9):
                self.taken(link, 2**40 if self.chance(0.9) else 2600)

    def stream(self, receiver):
        """A hello and frames for a host, under the name of a host for which there is an inlet, mostly."""
        r = self.r
        inlets = [(inlet["from"], inlet["lane"], self.some(self.universe, 0.3)) for inlet in self.hosts[receiver].get("inlets", [])]
        own = [(name, place, lane.get("label", [])) for name, place, lane in self.conns if lane["to"] == receiver]
        silent = [one for one in inlets if one[0] in self.silent]
        options = silent * 3 + inlets + own
        if options and self.chance(0.92):
            name, lane, label = r.choice(options)
        else:
            name, lane, label = r.choice(self.names), r.choice([1, 2, 32]), self.some(self.universe, 0.3)
        fault = r.choice(FAULTS + 3 * FAULTS[6:]) if self.chance(0.4) else None
        to = self.public(receiver)
        of = [self.category(one) for one in label]
        lane_key = records.key(self.secrets[name], lane, self.lane_types[name])
        exporter = self.public(name)
        start, until = r.choice([(0, FOREVER)] * 8 + [(0, 5), (5, FOREVER)])
        sign = self.key(name).sign
        leaf = r.randrange(32)
        good = lambda part: sign(leaf, part)
        bad = lambda part: good(part + b"x")
        receives = self.public(r.choice(self.names)) if fault == "HelloReceiver" else to
        number = r.choice([33, 2**32 - 1, lane]) if fault == "HelloCert" else r.choice([5, 9]) if fault == "NoInlet" else lane
        cert = records.lane_cert(exporter, number, receives, of, lane_key.public,
                                 bad if fault == "HelloSignature" else good, start, until)
        if fault == "HelloCert":
            cert = r.choice([cert + b"x", cert[:-1], cert[:1] + b"\x07" + cert[2:], b"\x01" + cert[1:], cert[:117] + b"\x41" + cert[118:]])
        out = records.hello(cert)
        if fault == "Magic":
            place = r.randrange(4)
            out = out[:place] + b"Q" + out[place + 1:]
        elif fault == "HelloCount":
            out = out[:4] + r.choice([b"\x00\x00", b"\x1a\xcd", b"\xff\xff"]) + out[6:]
        number = r.choice([0, 0, 0, 1, 5, 31])
        for _ in range(r.choice([1, 1, 2, 3])):
            out += self.frame(number, to, of, lane_key, fault if self.chance(0.8) else None)
            number = number + r.choice([1, 1, 1, 2, 0]) if self.chance(0.95) else max(0, number - 1)
        return out

    def frame(self, number, to, of, lane_key, fault):
        r = self.r
        messages = [self.message(to, of) for _ in range(r.choice([1, 1, 2, 16]))]
        good = lambda part: lane_key.sign(number % 32, part)
        if fault == "Tag":
            return records.frame(number, messages, b"none", tag=r.choice([0, 1, 3, 5, 255]))
        if fault == "Count":
            return records.frame(number, messages, b"none", count=r.choice([0, 17, 65535]))
        if fault == "Length":
            return records.frame(number, messages, b"none", length=r.choice([0, 1155729, 2**32 - 1]))
        if fault == "SignatureCount":
            return r.choice([records.frame(number, messages, b""), records.frame(number, messages, b"y" * 2509)])
        if fault == "Split":
            count = r.choice([one for one in range(1, 17) if one != len(messages)])
            return records.frame(number, messages, good, count=count)
        if fault == "Leaf":
            return records.frame(number, messages, r.choice([b"abc", records.u32(number + 1) + b"rest", lambda part: lane_key.sign((number + 1) % 32, part)]))
        if fault == "Signature":
            return records.frame(number, messages, r.choice([lambda part: good(part + b"x"), records.u32(number) + b"rest",
                                                            lambda part: good(part)[:-1], lambda part: good(part) + b"x"]))
        if fault == "Body":
            place = r.randrange(len(messages))
            messages[place] = r.choice([b"", messages[place] + b"x", messages[place][:-1], b"\x07" + messages[place][1:],
                                        messages[place][:61] + b"\x41" + messages[place][62:]])
        return records.frame(number, messages, good)

    def message(self, to, of):
        """A message for a host, mostly for one of its mailboxes and under the lane's label."""
        r = self.r
        receiver = next((name for name in self.names if self.public(name) == to), None)
        boxes = self.hosts[receiver].get("boxes", [])
        slot = r.choice(boxes)["slot"] if boxes and self.chance(0.85) else r.choice([0, 1, 2, 77])
        if self.chance(0.06):
            to = self.public(r.choice(self.names)) if self.chance(0.7) else bytes(56)
        known = [self.category(one) for one in self.universe]
        nobody = [records.category(bytes([9]) * 56, kind, 5) for kind in (0, 1)]
        grants = [self.some(known, 0.15), self.some(known, 0.15)]
        if self.chance(0.05):
            grants[r.randrange(2)] = r.sample(nobody, 1)
        if self.chance(0.06):
            of = of + nobody if self.chance(0.5) else self.some(known, 0.5)
        certs = []
        if self.chance(0.25):
            certs = list({self.delegation_bytes() for _ in range(r.choice([1, 2]))})
        return records.message(to, slot, of, *grants, certs, r.choice([b"out", b"", b"\\\x00\xff", b"long" * 100]))

    def delegation_bytes(self):
        r = self.r
        category = r.choice(self.universe) if self.universe else None
        creator = category.split(".")[0] if category and self.chance(0.7) else r.choice(self.names)
        if category is None or creator in self.strange:
            return records.delegation(records.category(bytes(56), 0, 7), bytes(56), bytes(56), b"none")
        return bytes.fromhex(self.spelt_delegation(creator, category, r.choice(self.names)))


def document_of(number):
    """The document that a number draws."""
    return Drawn(random.Random(number)).draw()


# WHAT CAME UP

def tally_text(text, tally):
    """Counts the notes, rules, entries and faults of a text."""
    section = ""
    for line in text.decode("utf-8").split("\n"):
        words = line.strip().split(" ")
        if line.startswith("  "):
            if words[0] in ("refused", "dropped", "drop"):
                tally[f"{words[0]} {words[1]}"] += 1
            else:
                tally[f"{section} {words[0]}"] += 1
                if words[-1] == "nogrant" and words[0] == "took":
                    tally["proc nogrant"] += 1
        elif line:
            section = words[0]
            if section == "conn":
                tally["conn from " + ("a link" if words[3] == "link" else "a lane")] += 1
                tally["fault " + words[-2] if words[-3] == "failed" else "conn open"] += 1
            elif section in ("host", "proc", "box", "lane", "inlet"):
                tally["lines of " + section] += 1
            if "~" in line.split(" stream ")[0]:
                tally["categories of nobody"] += 1


def expected():
    """All that a text can show."""
    names = list(ENTRIES)
    names += [f"{word} {rule}" for word, rules in ASKED.items() for rule in rules.split()]
    return names + [f"fault {name}" for name in FAULTS]


def show(tally):
    for name, count in sorted(tally.items()):
        print(f"  {name}: {count}")
    missing = [name for name in expected() if not tally[name]]
    print("never came up: " + (", ".join(missing) if missing else "nothing"))


# SMALLER DOCUMENTS

def smaller(document, differs):
    """A document from which nothing more can be taken away, such that it still differs."""
    def parts(value, path=()):
        items = value.items() if isinstance(value, dict) else enumerate(value) if isinstance(value, list) else ()
        for place, item in items:
            yield path + (place,)
            yield from parts(item, path + (place,))

    def without(path):
        changed = copy.deepcopy(document)
        here = changed
        for step in path[:-1]:
            here = here[step]
        if isinstance(here[path[-1]], str) and len(here[path[-1]]) > 8 and path[-1] in (2,):
            here[path[-1]] = here[path[-1]][:4]
        else:
            del here[path[-1]]
        return changed

    again = True
    while again:
        again = False
        for path in sorted(parts(document), key=lambda path: (len(path), str(path))):
            try:
                changed = without(path)
            except (KeyError, IndexError, TypeError):
                continue
            if differs(changed):
                document, again = changed, True
                break
    return document


def option(words, name, default):
    """The word after a name, both taken out of the words."""
    if name not in words:
        return default
    place = words.index(name)
    value = words[place + 1]
    del words[place:place + 2]
    return value


def main():
    words = sys.argv[1:]
    shrink = "--shrink" in words
    words = [word for word in words if word != "--shrink"]
    workers = int(option(words, "--workers", os.cpu_count()))
    keep = option(words, "--keep", ".")
    latest = time.monotonic() + float(option(words, "--seconds", FOREVER))
    if len(words) != 4:
        sys.exit(__doc__)
    ours = None if words[0] == "-" else os.path.abspath(words[0])
    reference = os.path.abspath(words[1])
    seed, count = int(words[2]), int(words[3])

    def one(number):
        if time.monotonic() > latest:
            return number, None, None, None
        document = document_of(seed * 1000003 + number)
        spelt = json.dumps(document, ensure_ascii=number % 2 == 0).encode()
        theirs = answer(reference, spelt)
        return number, document, theirs, theirs if ours is None else answer(ours, spelt)

    def differs(document):
        spelt = json.dumps(document).encode()
        theirs = answer(reference, spelt)
        return theirs[0] == 0 and theirs != answer(ours, spelt)

    tally, statuses, differ = collections.Counter(), collections.Counter(), 0
    for number in range(0, count, 64):
        batch = range(number, min(number + 64, count))
        if workers > 1:
            with ThreadPoolExecutor(workers) as pool:
                seen = list(pool.map(one, batch))
        else:
            seen = map(one, batch)
        for place, document, theirs, mine in seen:
            if document is None:
                continue
            statuses[theirs[0]] += 1
            if theirs[0] != 0:
                print(f"{place}: the reference refuses it: {theirs[2].decode().strip()}", flush=True)
            else:
                tally_text(theirs[1], tally)
                for event in document.get("events", ()):
                    tally["event " + event[0]] += 1
                tally["without events" if "events" not in document else "with events"] += 1
            if theirs != mine:
                differ += 1
                name = os.path.join(keep, f"differ-{seed}-{place}.json")
                with open(name, "w") as file:
                    json.dump(document, file)
                left, right = mine[1].split(b"\n"), theirs[1].split(b"\n")
                at = next((i for i, (a, b) in enumerate(zip(left, right)) if a != b), min(len(left), len(right)))
                print(f"{name}: statuses {mine[0]} and {theirs[0]}; line {at}: ours {left[at:at + 1]}, "
                      f"the reference {right[at:at + 1]}", flush=True)
                if shrink:
                    with open(os.path.join(keep, f"small-{seed}-{place}.json"), "w") as file:
                        json.dump(smaller(document, differs), file)
    show(tally)
    print(f"compared {sum(statuses.values())} from seed {seed}, differ {differ}, by the reference's status {dict(statuses)}")
    sys.exit(1 if differ else 0)


if __name__ == "__main__":
    main()
