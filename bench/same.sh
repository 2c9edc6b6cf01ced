#!/usr/bin/env bash
# Shows that the builds for the kit's default processor and for this machine's give the same bytes: 1,000 keys, a signature of
# each, and how it and a changed one are judged.
set -eu
here=$(cd "$(dirname "$0")" && pwd)
folder=$(mktemp -d)
trap 'rm -rf "$folder"' EXIT
. "$here/built.sh"
machine=$(processor)
[ -n "$machine" ] || { echo "this machine's processor is the default one" >&2; exit 1; }
laid same "$here/same.program" sha_lanes lms_sig
ran same "$folder/default"
ran same "$folder/machine" "$machine"
cmp "$folder/default" "$folder/machine"
echo "the same $(wc -l < "$folder/default") lines for the default processor and $machine:" \
    "$(grep -c '^good' "$folder/default") good, $(grep -c 'bad:' "$folder/default") refused"
