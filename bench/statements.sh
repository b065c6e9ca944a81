#!/bin/bash
# The time that the statements of all names of a registry take beside its rows: for a real one, for structs of many members, which grows with their
# number, and for many structs with a chain, which grows with the square of the names.
#   bench/statements.sh             (needs `apt-get install libvulkan-dev`, Python, GNU time, and `rt`)
set -eu
top=$(cd "$(dirname "$0")/.." && pwd)
registry=$( (dpkg -L libvulkan-dev || true) 2>/dev/null | grep 'registry/vk.xml') || { echo "bench: libvulkan-dev isn't installed" >&2; exit 2; }
program=$top/crates/read_registry/out/read_registry
(cd "$top/crates/read_registry" && rt run -- "$registry" >/dev/null 2>&1) || true
[ -x "$program" ] || { echo "bench: the program isn't built" >&2; exit 2; }
made=$(mktemp -d)
trap 'rm -rf "$made"' EXIT
python3 "$top/bench/statements_files.py" "$made"
for file in "$registry" "$made"/*.xml; do
  for word in rows statements; do
    env time -f '%U s, %M kB' -o "$made/time" "$program" "$word" "$file" >"$made/said"
    printf '%s, %d bytes, %s: %s (%s)\n' "$(basename "$file" .xml)" "$(stat -c %s "$file")" "$word" "$(cat "$made/time")" "$(tail -1 "$made/said" | sed 's|^[^:]*: ||')"
  done
done
