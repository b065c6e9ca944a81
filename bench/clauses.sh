#!/bin/bash
# The time that putting a pool of a million nodes into clauses takes, and that of judging a refutation of 100,000 steps.
#   bench/clauses.sh          (needs `rt`)
set -eu
top=$(cd "$(dirname "$0")/.." && pwd)
program=$top/crates/time_clauses/out/time_clauses
(cd "$top/crates/time_clauses" && rt run -- judge 1 >/dev/null 2>&1) || true
[ -x "$program" ] || { echo "bench: the program isn't built" >&2; exit 2; }
for work in 'encode 1000000' 'judge 100000'; do
  start=$(date +%s.%N)
  # shellcheck disable=SC2086
  answer=$("$program" $work)
  end=$(date +%s.%N)
  printf '%-15s %-50s %.2f s\n' "$work" "$answer" "$(echo "$end - $start" | bc)"
done
