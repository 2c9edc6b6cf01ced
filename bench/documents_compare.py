#!/usr/bin/env python3
"""Compares what two programs answer to random documents: whole ones, and ones that break a rule.

    documents_compare.py OURS REFERENCE SEED COUNT [--lines] [--workers N]

Both are run as `PROGRAM sim`, a document on standard input; with status 0 their texts are compared, with status 5 the
code and the place that standard error tells. With --lines OURS is run once: it gets the documents in hex, a line
each, and writes of each `ok`, or the code and the place; texts aren't compared then. Where they differ, the document is written to
differ-SEED-NUMBER.json here.
"""
import collections
import copy
import json
import os
import random
import re
import subprocess
import sys
import tempfile
from concurrent.futures import ThreadPoolExecutor

HEX = "0123456789abcdef"


def answer(program, document):
    """What `program sim` answers to the document, run in a folder of its own: its text, or the code and the place."""
    with tempfile.TemporaryDirectory() as folder:
        done = subprocess.run([program, "sim"], input=document, capture_output=True, cwd=folder)
    if done.returncode == 5:
        words = done.stderr.decode().split()
        return f"{words[2]} {words[4]}"
    return "ok\n" + done.stdout.decode() if done.returncode == 0 else f"status {done.returncode}"


def answers_by_lines(program, documents):
    """What the program answers to all documents, a line each."""
    lines = b"".join(document.hex().encode() + b"\n" for document in documents)
    done = subprocess.run([program], input=lines, capture_output=True)
    return done.stdout.decode().split("\n")[:-1]


def keyhex(r):
    return "00000005" + "00000003" + "".join(r.choice(HEX) for _ in range(96))

def address_cert(r, n=None, sig=4):
    n = r.randrange(2**32) if n is None else n
    a = b"h%d" % n
    key = bytes([n % 251]) * 56
    s = bytes(r.randrange(256) for _ in range(sig))
    return bytes([2]) + key + bytes([len(a)]) + a + (0).to_bytes(8, "big") + (2**64 - 1).to_bytes(8,
        "big") + len(s).to_bytes(2, "big") + s

def delegation_cert(r):
    s = bytes(r.randrange(256) for _ in range(r.choice([0, 4, 30])))
    return bytes([1]) + bytes(56) + bytes([r.choice([0, 1])]) + r.randrange(2**64).to_bytes(8,
        "big") + bytes([7]) * 56 + bytes(16) + bytes([9]) * 56 + len(s).to_bytes(2, "big") + s

class G:
    def __init__(self, r):
        self.r = r
        r_ = r
        self.names = r.sample(["a", "b", "c", "d-1", "e_2", "host", "zz", "x" * 32], r.randrange(1, 5))
        self.silent = {n for n in self.names if r.random() < 0.2}
        self.nprocs = {n: (0 if n in self.silent else r.randrange(0, 3)) for n in self.names}
        self.made = {n: [r.choice([0, 1, 2, 5, 2147483647]) for _ in range(self.nprocs[n])] for n in self.names}

    def cat(self, made=True, home=None, foreign=None):
        r = self.r
        for _ in range(20):
            n = r.choice(self.names)
            if home and n != home:
                continue
            if foreign and n == foreign:
                continue
            if n in self.silent:
                return f"{n}.{r.choice([0, 1, 1000000])}.{r.choice([0, 3, 2147483647])}.{r.choice('si')}"
            ps = [p for p in range(self.nprocs[n]) if self.made[n][p] > 0 or not made]
            if not ps:
                continue
            p = r.choice(ps)
            m = self.made[n][p]
            return f"{n}.{p}.{r.randrange(m) if made else r.choice([0, 7, 2147483647])}.{r.choice('si')}"
        return None

    def cats(self, **k):
        out = [self.cat(**k) for _ in range(self.r.choice([0, 0, 1, 1, 2, 3]))]
        return [c for c in out if c]

    def reg(self): return f"r{self.r.randrange(8)}"
    def name(self): return self.r.choice(self.names)

    def op(self, size):
        r = self.r
        w = r.choice(["set", "join", "ifeq", "jump", "print", "send", "take", "label", "newcat", "delegate", "map",
            "import"])
        c = self.cat(made=False)
        if w in ("delegate", "map") and not c:
            w = "print"
        return {"set": lambda: [w, self.reg(), r.choice(["", "hi", "\u00e9\n", "x" * 300])],
                "join": lambda: [w, self.reg(), self.reg(), self.reg()],
                "ifeq": lambda: [w, self.reg(), self.reg(), r.randrange(size + 1)],
                "jump": lambda: [w, r.randrange(size + 1)],
                "print": lambda: [w, self.reg()],
                "send": lambda: [w, self.name(), r.choice([0, 1, 2, 2**32 - 1]), self.reg(), self.cats(made=False),
                    self.cats(made=False), self.cats(made=False)],
                "take": lambda: [w, self.reg(), r.choice([0, 1, 2])],
                "label": lambda: [w, self.cats(made=False)],
                "newcat": lambda: [w, r.choice("si")],
                "delegate": lambda: [w, self.reg(), c, self.name(), r.choice([0, 5]), r.choice([9, 2**64 - 1])],
                "map": lambda: [w, c],
                "import": lambda: [w, self.reg()]}[w]()

    def labels_for(self, host, mapped):
        out = []
        for _ in range(self.r.choice([0, 0, 1, 2])):
            if mapped and self.r.random() < 0.5:
                out.append(self.r.choice(mapped))
            else:
                c = self.cat(home=host)
                if c:
                    out.append(c)
        return out

    def doc(self):
        r = self.r
        hosts = []
        big = r.random() < 0.01
        for n in self.names:
            h = {"name": n}
            if n in self.silent:
                h["key"] = keyhex(r)
                if r.random() < 0.2:
                    h["key"] = h["key"].upper()
            else:
                h["seed"] = "".join(r.choice(HEX) for _ in range(64))
            if not (r.random() < 0.01):
                h["identity"] = r.choice(["5.3"] * 5 + ["5.4"])
            if not (r.random() < 0.01):
                h["lanekey"] = "5.3"
            if n not in self.silent:
                if r.random() < 0.5:
                    h["address"] = r.choice(["127.0.0.1:7001", "x", "~" * 64])
                mapped = [c for c in (self.cat(foreign=n) for _ in range(r.choice([0, 1, 2,
                    3]))) if c and not c.startswith(n + ".")]
                if r.random() < 0.3:
                    mapped += mapped
                if mapped or r.random() < 0.3:
                    h["map"] = mapped
                procs = []
                for p in range(self.nprocs[n]):
                    q = {}
                    if self.made[n][p] or r.random() < 0.5:
                        q["made"] = self.made[n][p]
                    for k in ("label", "own", "clear"):
                        if r.random() < 0.6:
                            q[k] = self.labels_for(n, mapped)
                    size = r.choice([0, 1, 3, 5])
                    q["script"] = [self.op(size) for _ in range(size)]
                    procs.append(q)
                if procs or r.random() < 0.3:
                    h["procs"] = procs
                boxes = []
                if self.nprocs[n]:
                    for s in r.sample([0, 1, 2, 3, 2**32 - 1], r.randrange(0, 4)):
                        b = {"slot": s, "proc": r.randrange(self.nprocs[n]), "room": r.choice([1, 16, 256])}
                        if r.random() < 0.6:
                            b["label"] = self.labels_for(n, mapped)
                        boxes.append(b)
                if boxes or r.random() < 0.3:
                    h["boxes"] = boxes
                lanes, seen = [], set()
                for _ in range(r.randrange(0, 4)):
                    l = {"to": self.name(), "room": r.choice([1, 4, 256])}
                    cs = self.cats()
                    if cs or r.random() < 0.5:
                        l["label"] = cs
                    k = (l["to"], frozenset(cs))
                    if k in seen:
                        continue
                    seen.add(k)
                    if r.random() < 0.3:
                        l["until"] = r.choice([0, 5, 2**64 - 1])
                    lanes.append(l)
                if lanes or r.random() < 0.3:
                    h["lanes"] = lanes
            hosts.append(h)
        for h in hosts:
            if h["name"] in self.silent:
                continue
            inlets = []
            for _ in range(r.choice([0, 0, 1, 2])):
                f, l = self.name(), r.randrange(1, 33)
                fl = next(x for x in hosts if x["name"] == f).get("lanes", [])
                if l <= len(fl) and fl[l - 1]["to"] == h["name"]:
                    continue
                if any(i["from"] == f and i["lane"] == l for i in inlets):
                    continue
                inlets.append({"from": f, "lane": l})
            if inlets or r.random() < 0.2:
                h["inlets"] = inlets
        d = {"version": 1, "hosts": hosts, "budget": r.choice([1, 5, 20])}
        if r.random() < 0.01:
            del d["budget"]
        if r.random() < 0.5:
            d["moment"] = r.choice([0, 7, 2**64 - 1])
        running = [n for n in self.names if n not in self.silent]
        certs = []
        for _ in range(r.choice([0, 0, 1, 2, 4])):
            c = self.cat(made=False)
            if r.random() < 0.5 and running and c:
                certs.append({"by": r.choice(running), "cat": c, "to": self.name(), "from": 0, "until": r.choice([5,
                    2**64 - 1]), "at": [self.name() for _ in range(r.randrange(3))]})
            else:
                hx = (address_cert(r) if r.random() < 0.5 else delegation_cert(r)).hex()
                if r.random() < 0.2:
                    hx = hx.upper()
                certs.append({"hex": hx, "at": [self.name() for _ in range(r.randrange(3))]})
        if certs or r.random() < 0.2:
            d["certs"] = certs
        links = [self.name() for _ in range(r.choice([0, 0, 1, 2]))]
        if links or r.random() < 0.2:
            d["links"] = links
        nl = sum(len(h.get("lanes", [])) for h in hosts)
        nc = nl + len(links)
        if r.random() < 0.5:
            evs = []
            for _ in range(r.choice([0, 1, 3, 6])):
                w = r.choice(["step", "frame", "arrive", "accept", "deliver", "tick", "inject", "copy"])
                if w == "step":
                    ok = [n for n in running if self.nprocs[n]]
                    if ok:
                        n = r.choice(ok)
                        evs.append([w, n, r.randrange(self.nprocs[n])])
                elif w == "frame":
                    ok = [h for h in hosts if h.get("lanes")]
                    if ok:
                        h = r.choice(ok)
                        evs.append([w, h["name"], r.randrange(1, len(h["lanes"]) + 1)])
                elif w == "tick":
                    evs.append([w, self.name(), r.choice([0, 9, 2**64 - 1])])
                elif w in ("accept", "deliver"):
                    if nc:
                        evs.append([w, r.randrange(nc)])
                elif w == "arrive":
                    if nc:
                        evs.append([w, r.randrange(nc), r.choice([0, 1, 5000, 2**64 - 1])])
                elif w == "inject":
                    if links:
                        evs.append([w, r.randrange(nl, nc), r.choice(["", "00ff", "DSX1".encode().hex().upper()])])
                elif w == "copy":
                    if links:
                        evs.append([w, r.randrange(nl, nc), r.randrange(nc), r.choice([0, 3]), r.choice([0, 9, 2**64 - 1])])
            d["events"] = evs
        return d

def paths(d, pre=()):
    yield pre
    if isinstance(d, dict):
        for k in d:
            yield from paths(d[k], pre + (k,))
    elif isinstance(d, list):
        for i in range(len(d)):
            yield from paths(d[i], pre + (i,))

def get(d, p):
    for k in p:
        d = d[k]
    return d

def setp(d, p, v):
    if not p:
        return v
    get(d, p[:-1])[p[-1]] = v
    return d

class Raw(float):
    pass

NUMS = [0, 1, -1, 2, 31, 32, 33, 255, 256, 257, 1000, 20000, 20001, 2147483647, 2147483648, 2**32 - 1, 2**32, 2**63,
    2**64 - 1, 2**64, 1.0, 1.5, 1e3, -0.0]
def junk(r):
    return r.choice([None, True, False, "", "a", "zz9", "r0", "r8", [], {}, [[]], {"a": 1}, ["set"], r.choice(NUMS),
        r.choice(NUMS), "a.0.0.s", "q.0.0.s", "a.9.0.i", "5.3", "\u00e9", ["step", "a", 0], "00", "0", "zz", "A"])

def mutate_text(r, s):
    k = r.randrange(10)
    if k == 0:
        return s + r.choice(["x", ".", "0", " ", "\u00e9"])
    if k == 1:
        return s[:-1]
    if k == 2:
        return s[1:]
    if k == 3 and s:
        i = r.randrange(len(s))
        return s[:i] + r.choice("abz019.-_ A~\x7f") + s[i + 1:]
    if k == 4:
        return s.upper()
    if k == 5:
        return s * r.choice([2, 33, 65])
    if k == 6:
        return "x" * r.choice([31, 32, 33, 64, 65, 16384, 16385])
    if "." in s:
        f = s.split(".")
        if len(f) == 4:
            j = r.randrange(4)
            f[j] = r.choice([["nobody", "", "a", "b", "A"], ["1000000", "1000001", "01", "", "7", "00",
                "99999999999"], ["2147483647", "2147483648", "1", "01", "", "99999999999"], ["x", "si", "", "s",
                "i"]][j])
            return ".".join(f)
    return r.choice(["nobody", "a", "b", "c", "5.5", "6.4", "r7", "r8", "s", "i", "q"])

MEMBERS = ["version", "hosts", "moment", "budget", "certs", "links", "events", "name", "seed", "key", "identity",
    "lanekey", "address", "map", "procs", "boxes", "lanes", "inlets", "made", "label", "own", "clear", "script",
    "slot", "proc", "room", "to", "until", "from", "lane", "by", "cat", "at", "hex", "extra", "", "zzz", "A"]

def mutate(r, d, g):
    ps = list(paths(d))
    p = r.choice(ps)
    if r.random() < 0.5:
        # prefer deep
        p = max((r.choice(ps) for _ in range(3)), key=len)
    v = get(d, p)
    k = r.randrange(16)
    if isinstance(v, dict) and k < 8:
        kk = r.randrange(5)
        keys = list(v)
        if kk == 0 and keys:
            del v[r.choice(keys)]
        elif kk == 1:
            v[r.choice(MEMBERS)] = junk(r)
        elif kk == 2 and keys:
            a = r.choice(keys)
            b = r.choice(MEMBERS)
            v[b] = v.pop(a)
        elif kk == 3 and keys:
            v[r.choice(keys)] = junk(r)
        else:
            v[r.choice(MEMBERS)] = copy.deepcopy(get(d, r.choice(ps)))
        return d
    if isinstance(v, list) and k < 9:
        kk = r.randrange(6)
        if kk == 0 and v:
            v.pop(r.randrange(len(v)))
        elif kk == 1 and v:
            v.insert(r.randrange(len(v) + 1), copy.deepcopy(r.choice(v)))
        elif kk == 2:
            v.insert(r.randrange(len(v) + 1), junk(r))
        elif kk == 3 and v:
            r.shuffle(v)
        elif kk == 4 and v:
            v[:] = [copy.deepcopy(v[i % len(v)]) for i in range(r.choice([17, 33, 65, 257]))]
        else:
            v.append(copy.deepcopy(get(d, r.choice(ps))))
        return d
    if isinstance(v, bool) or v is None:
        return setp(d, p, junk(r))
    if isinstance(v, (int, float)) and k < 12:
        return setp(d, p, r.choice(NUMS + [v + 1 if isinstance(v, int) else 1, max(v - 1, 0), v, v + 2]))
    if isinstance(v, str) and k < 12:
        return setp(d, p, mutate_text(r, v))
    if k < 14:
        return setp(d, p, copy.deepcopy(get(d, r.choice(ps))))
    return setp(d, p, junk(r))

def special(r, d, g):
    """aims at the later codes"""
    hosts = d["hosts"]
    h = r.choice(hosts)
    k = r.randrange(26)
    run = [x for x in hosts if "seed" in x]
    sil = [x for x in hosts if "key" in x]
    if k == 0 and len(hosts) > 1:
        hosts[-1]["name"] = hosts[0]["name"]
    elif k == 1 and len(run) > 1:
        run[-1]["seed"] = run[0]["seed"].upper()
        run[-1]["identity"] = r.choice(["5.3", "5.4"])
    elif k == 2 and len(sil) > 1:
        sil[-1]["key"] = sil[0]["key"].upper()
    elif k == 3 and h.get("boxes"):
        h["boxes"].append(copy.deepcopy(r.choice(h["boxes"])))
    elif k == 4 and h.get("lanes"):
        l = copy.deepcopy(r.choice(h["lanes"]))
        l["room"] = 7
        l["label"] = list(reversed(l.get("label", []) * 2))
        h["lanes"].insert(r.randrange(len(h["lanes"]) + 1), l)
    elif k == 5 and h.get("inlets"):
        h["inlets"].append(copy.deepcopy(r.choice(h["inlets"])))
    elif k == 6:
        for x in run:
            for j, l in enumerate(x.get("lanes", [])):
                for y in run:
                    if y["name"] == l["to"]:
                        y.setdefault("inlets", []).append({"from": x["name"], "lane": j + 1})
    elif k == 7 and run:
        x = r.choice(run)
        x["identity"] = "5.3"
        certs = d.setdefault("certs", [])
        n = 32 - len(x.get("lanes", [])) - ("address" in x) + r.choice([-1, 0, 1])
        c = g.cat(made=False) or f"{x['name']}.0.0.s"
        have = sum(1 for q in certs if q.get("by") == x["name"])
        for _ in range(n - have):
            certs.append({"by": x["name"], "cat": c, "to": x["name"], "from": 0, "until": 5, "at": []})
    elif k == 8 and sil:
        r.choice(sil)[r.choice(["procs", "boxes", "lanes", "inlets", "map"])] = []
    elif k == 9 and sil:
        r.choice(sil)["address"] = "x"
    elif k == 10 and sil:
        d.setdefault("certs", []).append({"by": r.choice(sil)["name"], "cat": f"{sil[0]['name']}.0.0.s",
            "to": sil[0]["name"], "from": 0, "until": 5, "at": []})
    elif k == 11 and h.get("procs"):
        q = r.choice(h["procs"])
        q[r.choice(["label", "own", "clear"])] = [f"{h['name']}.0.{r.choice([0, 1, 2, 5])}.s"]
    elif k == 12 and h.get("procs"):
        q = r.choice(h["procs"])
        x = r.choice(hosts)
        q[r.choice(["label", "own", "clear"])] = [f"{x['name']}.0.{r.choice([0, 1])}.s"]
    elif k == 13 and run:
        x = r.choice(run)
        x["map"] = x.get("map", []) + [f"{x['name']}.0.0.s"]
    elif k == 14 and h.get("boxes"):
        r.choice(h["boxes"])["label"] = [f"{r.choice(hosts)['name']}.{r.choice([0, 1])}.{r.choice([0, 1])}.s"]
    elif k == 15 and h.get("lanes"):
        r.choice(h["lanes"])["label"] = [f"{r.choice(hosts)['name']}.{r.choice([0, 1])}.{r.choice([0, 1])}.s"]
    elif k == 16 and h.get("procs"):
        q = r.choice(h["procs"])
        n = len(q["script"])
        q["script"].append(r.choice([["jump", n + r.choice([0, 1, 2, 3])], ["ifeq", "r0", "r1", n + r.choice([0, 1,
            2])]]))
    elif k == 17:
        d.setdefault("events", []).append(r.choice([["step", h["name"], r.randrange(4)], ["frame", h["name"],
            r.randrange(5)], ["accept", r.randrange(8)], ["deliver", r.randrange(8)], ["arrive", r.randrange(8),
            2**32], ["inject", r.randrange(8), "00"], ["copy", r.randrange(8), r.randrange(8), 0, 1], ["tick",
            "nobody", 1], ["accept", 2**64 - 1]]))
    elif k == 18 and run:
        x = r.choice(run)
        certs = d.setdefault("certs", [])
        made = sum(1 for y in run if "address" in y)
        n = 64 - made + r.choice([0, 1, 2])
        for i in range(n):
            certs.append({"hex": address_cert(random.Random(i), i).hex(), "at": [x["name"]] * r.choice([1,
                2]) if r.random() < 0.97 else []})
        if r.random() < 0.5:
            certs.append(copy.deepcopy(r.choice(certs)))
        if r.random() < 0.3:
            certs.insert(r.randrange(len(certs)), copy.deepcopy(r.choice(certs)))
    elif k == 19 and h.get("procs"):
        n = r.choice([63, 64, 65, 66])
        q = r.choice(h["procs"])
        q["made"] = 100
        q[r.choice(["label", "own", "clear"])] = [f"{h['name']}.{h['procs'].index(q)}.{i}.s"
            for i in range(n)] + ([f"{h['name']}.{h['procs'].index(q)}.0.s"] if r.random() < 0.5 else [])
    elif k == 20 and sil and run:
        x = r.choice(run)
        n = r.choice([1023, 1024, 1025])
        x["map"] = [f"{sil[0]['name']}.0.{i}.s"
            for i in range(n)] + ([f"{sil[0]['name']}.0.0.s"] if r.random() < 0.5 else [])
    elif k == 21 and h.get("procs"):
        r.choice(h["procs"])["script"] = [["print", "r0"]] * r.choice([4096, 4097])
    elif k == 22 and h.get("procs"):
        r.choice(h["procs"])["script"].append(["set", "r0", r.choice(["x" * 16384, "x" * 16385, "\u00e9" * 8192,
            "\u00e9" * 8193])])
    elif k == 23:
        d["hosts"] = [{"name": f"h{i}", "key": f"{i:0112x}"} for i in range(r.choice([16,
            17]))] if r.random() < 0.5 else hosts
    elif k == 24:
        d["links"] = [h["name"]] * r.choice([16, 17])
    elif k == 25:
        d["events"] = [["tick", h["name"], 0]] * r.choice([20000, 20001])
    return d

def dump(r, d):
    s = json.dumps(d, ensure_ascii=r.random() < 0.5)
    x = r.random()
    if x < 0.01:
        s = s[:r.randrange(len(s) + 1)]
    elif x < 0.02:
        i = r.randrange(len(s))
        s = s[:i] + r.choice(['"', "{", "}", "[", "]", ",", ":", "1", "e", "\\u12", "\\ud800", "-", " ", "\x00",
            "+", "."]) + s[i:]
    elif x < 0.03:
        i = r.randrange(len(s))
        s = s[:i] + s[i + 1:]
    elif x < 0.04:
        # twice a key
        for k in r.sample(["\"name\":", "\"version\":", "\"room\":", "\"script\":"], 4):
            if k in s:
                s = s.replace(k, k + r.choice(["0", "[]", "\"a\""]) + ", " + k, 1)
                break
    elif x < 0.05:
        n = r.choice([60, 120, 122, 123, 124, 125, 126, 127, 128, 200])
        s = s[:-1] + ', "deep": ' + "[" * n + "]" * n + "}" if s.startswith("{") and s != "{}" else "[" * n + "]" * n
    elif x < 0.06:
        ms = list(re.finditer(r"(?<=[ \[])\d+(?=[,\]}])", s))
        if ms:
            m = r.choice(ms)
            s = s[:m.start()] + r.choice(["01", "1.", "+1", "1e400", "-0", "1E3", "0.0", "1e-400", "00",
                "18446744073709551615", "18446744073709551616", "-1", "1e2", "0e0"]) + s[m.end():]
    elif x < 0.065:
        s = "\ufeff" + s
    elif x < 0.07:
        s = s + r.choice([" ", "\n", "x", "{}"])
    b = s.encode("utf-8", "surrogatepass")
    if r.random() < 0.005:
        i = r.randrange(len(b) + 1)
        b = b[:i] + bytes([r.choice([0xff, 0xc3, 0x80, 0])]) + b[i:]
    return b

def case(seed):
    r = random.Random(seed)
    g = G(r)
    d = g.doc()
    x = r.random()
    if x < 0.15:
        return dump(r, d) if r.random() < 0.3 else json.dumps(d).encode()
    if x < 0.55:
        d = special(r, d, g)
        if r.random() < 0.3:
            d = special(r, d, g)
        if r.random() < 0.1:
            d = mutate(r, d, g)
    else:
        for _ in range(r.choice([1, 1, 1, 2, 3])):
            d = mutate(r, d, g)
    return dump(r, d)


def main():
    words = [word for word in sys.argv[1:] if word != "--lines"]
    workers = os.cpu_count()
    if "--workers" in words:
        place = words.index("--workers")
        workers = int(words[place + 1])
        del words[place:place + 2]
    if len(words) != 4:
        sys.exit(__doc__)
    ours, reference = os.path.abspath(words[0]), os.path.abspath(words[1])
    seed, count = int(words[2]), int(words[3])
    documents = [case(seed * 1000003 + number) for number in range(count)]
    with ThreadPoolExecutor(workers) as pool:
        theirs = list(pool.map(lambda document: answer(reference, document), documents))
        if "--lines" in sys.argv:
            theirs = [other.split("\n")[0] for other in theirs]
            mine = answers_by_lines(ours, documents)
        else:
            mine = list(pool.map(lambda document: answer(ours, document), documents))
    tally, differ = collections.Counter(), 0
    if len(mine) != count:
        sys.exit(f"{len(mine)} answers to {count} documents")
    for number, (one, other) in enumerate(zip(mine, theirs)):
        tally[other.split()[0]] += 1
        if one != other:
            differ += 1
            name = f"differ-{seed}-{number}.json"
            with open(name, "wb") as file:
                file.write(documents[number])
            print(f"{name}: ours {one.split(chr(10))[0]}, the reference {other.split(chr(10))[0]}")
    print(f"compared {count}, differ {differ}, by answer {dict(sorted(tally.items()))}")
    sys.exit(1 if differ else 0)


if __name__ == "__main__":
    main()
