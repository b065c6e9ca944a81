#!/bin/bash
# The time that the rows of a registry take beside its markup, that it grows with a registry's size and not with its square, and what is told of
# one with as many names, enumerants or options as a table holds, and with one more.
#   bench/rows.sh             (needs `apt-get install libvulkan-dev`, Python, GNU time, and `rt`)
set -eu
top=$(cd "$(dirname "$0")/.." && pwd)
registry=$( (dpkg -L libvulkan-dev || true) 2>/dev/null | grep 'registry/vk.xml') || { echo "bench: libvulkan-dev isn't installed" >&2; exit 2; }
program=$top/crates/read_registry/out/read_registry
(cd "$top/crates/read_registry" && rt run -- "$registry" >/dev/null 2>&1) || true
[ -x "$program" ] || { echo "bench: the program isn't built" >&2; exit 2; }
files=()
for _ in $(seq 20); do files+=("$registry"); done
seconds() {
  local start end
  start=$(date +%s.%N)
  "$@" >/dev/null
  end=$(date +%s.%N)
  echo "$end - $start" | bc
}
markup=$(seconds "$program" "${files[@]}")
both=$(seconds "$program" rows "${files[@]}")
printf '%d bytes, 20 times: markup %.2f s, markup and rows %.2f s, so rows by markup %.2f\n' \
  "$(stat -c %s "$registry")" "$markup" "$both" "$(echo "($both - $markup) / $markup" | bc -l)"
made=$(mktemp -d)
trap 'rm -rf "$made"' EXIT
python3 "$top/bench/rows_files.py" "$made"
for file in "$made"/*.xml; do
  env time -f '%U s, %M kB' -o "$made/time" "$program" rows "$file" >"$made/said"
  printf '%s, %d bytes: %s (%s)\n' "$(basename "$file" .xml)" "$(stat -c %s "$file")" "$(cat "$made/time")" "$(tail -1 "$made/said" | sed 's|^[^:]*: ||' | cut -c1-60)"
done
