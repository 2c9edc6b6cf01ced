#!/usr/bin/env bash
# Times 10,000 judgements of a book, whether a key holds a category, over 256 delegations of 64 categories, in each a line of four
# from key to key: all at one moment, and each at another than the one before; beside the plain search in the same run. It writes
# a small program into a new folder beside copies of the crates, and builds it
# there, which proves it and the crates first: that takes minutes, and fewer where the crates have their `out` folders.
set -eu
here=$(cd "$(dirname "$0")" && pwd)
folder=$(mktemp -d)
trap 'rm -rf "$folder"' EXIT
mkdir -p "$folder/crates/timed/src"
for crate in ds_wire ds_label sha_lanes lms_sig ds_cert ds_chain; do
    cp -r "$here/../crates/$crate" "$folder/crates/$crate"
done
cp "$here/../HANDLES" "$folder/"
cat > "$folder/crates.txt" <<'T'
ds_wire: thiserror
ds_label: thiserror
sha_lanes: sha2
lms_sig: sha_lanes sha2 thiserror
ds_cert: ds_wire ds_label lms_sig thiserror
ds_chain: ds_wire ds_label lms_sig ds_cert lru thiserror
timed: ds_wire ds_label lms_sig ds_cert ds_chain
T
cp "$here/chains.program" "$folder/crates/timed/src/main.rt"
(cd "$folder/crates/timed" && rt run > "$folder/seen" 2> "$folder/log") || { tail -n 20 "$folder/log" >&2; exit 1; }
python3 - "$folder/seen" <<'T'
import sys

count, plain, cached, indexed = map(int, open(sys.argv[1]).read().split())
if max(plain, cached, indexed) > 10 ** 20:
    sys.exit("a judgement differs from the plain one")
print(f"{count} delegations, 10,000 judgements: plain {plain / 1e6:.2f} ms; at one moment {cached / 1e6:.2f} ms, {plain / cached:.1f} times "
      f"as fast; at moments that change {indexed / 1e6:.2f} ms, {plain / indexed:.1f} times as fast")
T
