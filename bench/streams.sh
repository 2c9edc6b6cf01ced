#!/usr/bin/env bash
# Times what a connection does with streams, beside their signatures alone and a plain loop of the kit's Sha256 over as many
# bytes in the same run. It writes a small program into a new folder beside copies of the crates, and builds it there, which
# proves it and the crates first: that takes minutes, and fewer where the crates have their `out` folders.
set -eu
here=$(cd "$(dirname "$0")" && pwd)
folder=$(mktemp -d)
trap 'rm -rf "$folder"' EXIT
mkdir -p "$folder/crates/timed/src" "$folder/crates/timed/proofs/bodies"
for crate in ds_wire ds_label ds_script sha_lanes lms_sig ds_cert ds_msg ds_frame ds_model ds_inlet; do
    cp -r "$here/../crates/$crate" "$folder/crates/$crate"
done
cp "$here/../HANDLES" "$folder/"
cat > "$folder/crates.txt" <<'T'
ds_wire: thiserror
ds_label: thiserror
ds_script: ds_wire ds_label
sha_lanes: sha2
lms_sig: sha_lanes sha2 thiserror
ds_cert: ds_wire ds_label lms_sig thiserror
ds_msg: ds_wire ds_label ds_cert
ds_frame: ds_wire ds_label ds_cert lms_sig thiserror
ds_model: ds_wire ds_label ds_script ds_cert ds_msg
ds_inlet: ds_wire ds_label ds_script lms_sig ds_cert ds_msg ds_frame ds_model thiserror
timed: ds_wire ds_label ds_script lms_sig ds_cert ds_msg ds_frame ds_inlet sha2
T
# That the messages of a frame are in range, for the program's proof.
cat > "$folder/crates/timed/proofs/bodies/Invariants.antt" <<'T'
use Rattle.std.proofs.Common.{◌≡◌, ◌≤◌, length}
use Rattle.std.specs.List.{All}
use Rattle.timed.proofs.bodies.Given as goal

abbrev pub invariant-loop : goal.invariant-loop
invariant-loop l = (length l.bodies ≡ l.counter) × All (λ body. length body ≤ 72229) l.bodies
T
cat > "$folder/crates/timed/proofs/bodies/Answers.antt" <<'T'
use Rattle.std.proofs.Common.{arith}
use Rattle.ds_frame.proofs.Lengths.{messages_in_range}
use Rattle.timed.proofs.bodies.Goals as goal

pub returns : goal.returns
returns c = messages_in_range c.loop.bodies (omega (arith, c.loop.invariant.0, c.loop-test.false, c.requires.some)) (omega (arith, c.loop.invariant.0, c.loop.auto.counter-end, c.requires.most)) c.loop.invariant.1
T
cp "$here/streams.program" "$folder/crates/timed/src/main.rt"
(cd "$folder/crates/timed" && rt run > "$folder/seen" 2> "$folder/log") || { tail -n 20 "$folder/log" >&2; exit 1; }
python3 "$here/streams.py" "$folder/seen"
