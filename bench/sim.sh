#!/usr/bin/env bash
# Times `sim` on a document of 15 MB and on a run of 20,000 events, beside Python's json.load of the same files.
set -eu
here=$(cd "$(dirname "$0")" && pwd)
folder=$(mktemp -d)
trap 'rm -rf "$folder"' EXIT
python3 "$here/documents.py" "$folder"
"$here/../dstar" --prove
for name in large busy; do
    python3 - "$here/../dstar" "$folder/$name.json" <<'P'
import json, subprocess, sys, time
program, path = sys.argv[1:]
size = len(open(path, "rb").read())
def best(run):
    times = []
    for _ in range(5):
        began = time.perf_counter()
        run()
        times.append(time.perf_counter() - began)
    return min(times)
simulated = best(lambda: subprocess.run([program, "sim"], stdin=open(path, "rb"), stdout=subprocess.DEVNULL, check=True))
loaded = best(lambda: json.load(open(path)))
name = path.rsplit("/", 1)[1]
print(f"{name}: {size} bytes, sim {simulated * 1000:.1f} ms, json.load {loaded * 1000:.1f} ms")
P
done
