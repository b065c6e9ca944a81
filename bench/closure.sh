#!/bin/bash
# The time that the closure of a registry, its order and the presence of all names take beside its markup, and that it grows with a registry's
# size and not with its square.
#   bench/closure.sh             (needs `apt-get install libvulkan-dev`, Python, GNU time, and `rt`)
set -eu
top=$(cd "$(dirname "$0")/.." && pwd)
registry=$( (dpkg -L libvulkan-dev || true) 2>/dev/null | grep 'registry/vk.xml') || { echo "bench: libvulkan-dev isn't installed" >&2; exit 2; }
program=$top/crates/read_registry/out/read_registry
(cd "$top/crates/read_registry" && rt run -- "$registry" >/dev/null 2>&1) || true
[ -x "$program" ] || { echo "bench: the program isn't built" >&2; exit 2; }
files=()
for _ in $(seq 20); do files+=("$registry"); done
seconds() {
  local start end
  start=$(date +%s.%N)
  "$@" >/dev/null
  end=$(date +%s.%N)
  echo "$end - $start" | bc
}
markup=$(seconds "$program" "${files[@]}")
rows=$(seconds "$program" rows "${files[@]}")
names=$(seconds "$program" names "${files[@]}")
printf '%d bytes, 20 times: markup %.2f s, closure, order and presence %.2f s: by markup %.2f\n' \
  "$(stat -c %s "$registry")" "$markup" "$(echo "$names - $rows" | bc)" "$(echo "($names - $rows) / $markup" | bc -l)"
"$program" names "$registry" | tail -2 | sed 's|^[^:]*: ||'
made=$(mktemp -d)
trap 'rm -rf "$made"' EXIT
python3 "$top/bench/closure_files.py" "$made"
for file in "$made"/*.xml; do
  for word in rows names; do
    env time -f '%U s, %M kB' -o "$made/time" "$program" "$word" "$file" >"$made/said"
    printf '%s, %d bytes, %s: %s (%s)\n' "$(basename "$file" .xml)" "$(stat -c %s "$file")" "$word" "$(cat "$made/time")" "$(tail -1 "$made/said" | sed 's|^[^:]*: ||' | cut -c1-70)"
  done
done
