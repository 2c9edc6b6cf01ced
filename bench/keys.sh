#!/usr/bin/env bash
# Times making keys, signing, verifying and searching chains, and blocks in lanes, each beside a plain loop of the kit's Sha256
# over messages of 55 bytes in the same run, for the kit's default processor and for this machine's. It writes a small program
# into a new folder beside copies of the crates, and builds it there. Where Java and Bouncy Castle's bcprov.jar are installed,
# their LMS is timed too.
set -eu
here=$(cd "$(dirname "$0")" && pwd)
folder=$(mktemp -d)
trap 'rm -rf "$folder"' EXIT
. "$here/built.sh"
laid timed "$here/keys.program" ds_wire ds_label sha_lanes lms_sig ds_cert ds_chain
ran timed "$folder/default"
seen=(default="$folder/default")
machine=$(processor)
if [ -n "$machine" ]; then
    ran timed "$folder/machine" "$machine"
    seen+=("$machine=$folder/machine")
fi
python3 "$here/keys.py" "${seen[@]}"
jar=/usr/share/java/bcprov.jar
if [ -e "$jar" ] && command -v java > /dev/null; then java -cp "$jar" "$here/Lms.java"; fi
