#!/usr/bin/env bash
# Times `sim` on documents, messages and long runs, and measures its memory, beside other programs in the same run.
#
#     bench/runs.sh [NAME=PROGRAM..]
#
# Each PROGRAM is run as `PROGRAM sim`; bench/runs.py says how settings are given. The proved program comes first.
set -eu
here=$(cd "$(dirname "$0")" && pwd)
"$here/../dstar" --prove
exec python3 "$here/runs.py" dstar="$here/../crates/dstar/out/dstar" "$@"
