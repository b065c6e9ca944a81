#!/bin/bash
# The time of a processor that solving takes, beside that of minisat on the same files: random clauses of three literals, 4.26 for each variable, pigeons
# in one hole too few, a chain of 100,000 implications, and a million clauses that propagate to a model.
#   bench/solve.sh          (needs `rt`, python3, and Debian's package minisat)
set -eu
top=$(cd "$(dirname "$0")/.." && pwd)
program=$top/crates/solve_cnf/out/solve_cnf
(cd "$top/crates/solve_cnf" && rt run <stdin >/dev/null 2>&1) || true
[ -x "$program" ] || { echo "bench: the program isn't built" >&2; exit 2; }
command -v minisat >/dev/null || { echo "bench: minisat is missing: apt-get install minisat" >&2; exit 2; }
folder=$(mktemp -d)
trap 'rm -rf "$folder"' EXIT
python3 "$top/bench/solve_files.py" "$folder"

ours() { "$program" <"$1" >"$folder/ours" || true; }
theirs() { minisat -verb=0 "$1" "$folder/model" >"$folder/theirs" || true; }

elapsed() { # FUNCTION FILE: the seconds of a processor that it takes
  local TIMEFORMAT=%U
  { time "$@"; } 2>&1
}

all_ours=0
all_theirs=0
for file in "$folder"/*.cnf; do
  one=$(elapsed ours "$file")
  other=$(elapsed theirs "$file")
  answer=$(head -1 "$folder/ours")
  [ "${answer#s }" = "$(tail -1 "$folder/theirs")" ] || { echo "bench: other answers on $file" >&2; exit 1; }
  printf '%-16s %-16s %7.2f s %7.2f s\n' "$(basename "$file" .cnf)" "${answer#s }" "$one" "$other"
  all_ours=$(echo "$all_ours + $one" | bc)
  all_theirs=$(echo "$all_theirs + $other" | bc)
done
printf '%-16s %-16s %7.2f s %7.2f s\n' all '' "$all_ours" "$all_theirs"
