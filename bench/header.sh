#!/bin/bash
# That the header of a real registry has what the Khronos Group's own has, and that the time of a header grows with a registry's size and not with its square.
#   bench/header.sh           (needs `apt-get install libvulkan-dev`, Python, GNU time, and `rt`)
set -eu
top=$(cd "$(dirname "$0")/.." && pwd)
files=$( (dpkg -L libvulkan-dev || true) 2>/dev/null)
registry=$(grep 'registry/vk.xml' <<<"$files") || { echo "bench: libvulkan-dev isn't installed" >&2; exit 2; }
given=$(grep 'vulkan/vulkan_core.h' <<<"$files")
program=$top/crates/read_registry/out/read_registry
(cd "$top/crates/read_registry" && rt run -- "$registry" >/dev/null 2>&1) || true
[ -x "$program" ] || { echo "bench: the program isn't built" >&2; exit 2; }
made=$(mktemp -d)
trap 'rm -rf "$made"' EXIT
env time -f 'vk.xml: %U s, %M kB' "$program" header "$registry" >"$made/own.h"
python3 "$top/bench/header_check.py" "$made/own.h" "$given"
python3 "$top/bench/header_files.py" "$made"
for file in "$made"/*.xml; do
  rows=$( { env time -f '%U' "$program" rows "$file" >/dev/null; } 2>&1)
  all=$( { env time -f '%U s, %M kB' "$program" header "$file" >"$made/said"; } 2>&1)
  printf '%s, %d bytes: %s, of which rows take %s s, for %d bytes\n' "$(basename "$file" .xml)" "$(stat -c %s "$file")" "$all" "$rows" "$(stat -c %s "$made/said")"
done
