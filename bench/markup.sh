#!/bin/bash
# The time that reading a registry takes, against a C parser of XML on the same bytes, as a ratio.
#   bench/markup.sh           (needs `apt-get install libvulkan-dev libxml2-utils`, and `rt`)
set -eu
top=$(cd "$(dirname "$0")/.." && pwd)
registry=$( (dpkg -L libvulkan-dev || true) 2>/dev/null | grep 'registry/vk.xml') || { echo "bench: libvulkan-dev isn't installed" >&2; exit 2; }
program=$top/crates/read_registry/out/read_registry
(cd "$top/crates/read_registry" && rt run -- "$registry" >/dev/null 2>&1) || true
[ -x "$program" ] || { echo "bench: the program isn't built" >&2; exit 2; }
files=()
for _ in $(seq 20); do files+=("$registry"); done
seconds() {
  local start end
  start=$(date +%s.%N)
  "$@" >/dev/null
  end=$(date +%s.%N)
  echo "$end - $start" | bc
}
ours=$(seconds "$program" "${files[@]}")
theirs=$(seconds xmllint --noout "${files[@]}")
printf '%d bytes, 20 times: %.2f s here, %.2f s by xmllint, ratio %.2f\n' "$(stat -c %s "$registry")" "$ours" "$theirs" "$(echo "$ours / $theirs" | bc -l)"
