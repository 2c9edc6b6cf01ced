#!/usr/bin/env bash
# Times a mailbox that is filled and drained, with more and more rounds and with different rooms. It writes a small program into
# a new folder beside copies of the crates, and builds it there, which proves it and the crates first: that takes minutes, and
# fewer where the crates have their `out` folders.
set -eu
here=$(cd "$(dirname "$0")" && pwd)
folder=$(mktemp -d)
trap 'rm -rf "$folder"' EXIT
mkdir -p "$folder/crates/timed/src"
for crate in ds_queue ds_wire ds_label ds_script sha_lanes lms_sig ds_cert ds_msg ds_model ds_box; do
    cp -r "$here/../crates/$crate" "$folder/crates/$crate"
    grep "^$crate:" "$here/../crates.txt"
done > "$folder/crates.txt"
echo "timed: ds_wire ds_label ds_script ds_cert ds_msg ds_box" >> "$folder/crates.txt"
cp "$here/../HANDLES" "$folder/"
cp "$here/boxes.program" "$folder/crates/timed/src/main.rt"
(cd "$folder/crates/timed" && rt run > "$folder/seen" 2> "$folder/log") || { tail -n 20 "$folder/log" >&2; exit 1; }
python3 "$here/boxes.py" "$folder/seen"
