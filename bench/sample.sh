#!/bin/bash
# The time of a processor that `check` takes on samples, beside that of cadical on the same links in one formula. It fails where the two don't say the
# same, and where all links hold also where `check` takes more than three times as long: where one breaks, cadical needn't find the first. Over a registry that stays the same it fails where the time grows faster than the links.
#   bench/sample.sh [PROGRAM]       (needs `apt-get install cadical`, python3, GNU time, and the program built by ./vkbuild where none is named)
source "$(dirname "$0")/timed_check.sh"
command -v cadical >/dev/null || { echo "bench: cadical is missing: apt-get install cadical" >&2; exit 2; }

fail() {
  echo "bench: $1" >&2
  exit 1
}

# Measures `check` on a sample: check_sample SIZE TIMES [broken]
check_sample() {
  python3 "$top/bench/sample_files.py" "$@"
  least 5 "$program" check sample.xml sample.adoc vulkan
  verdict=$answer
  ours=$seconds
  said=$(printf '%5d extensions, %6d lines: %-22s %7.3f s, %7d kB' "$1" "$(wc -l <sample.adoc)" "$verdict" "$ours" "$kilobytes")
}

# The same beside cadical: compare SIZE TIMES [broken]
compare() {
  check_sample "$@"
  least 5 cadical -q links.cnf
  printf '%s; cadical %7.3f s, ratio %.2f\n' "$said" "$seconds" "$(echo "$ours / $seconds" | bc -l)"
  case "$verdict $answer" in
  "yes "*" s UNSATISFIABLE" | "no "*" s SATISFIABLE") ;;
  *) fail "the answers differ: $verdict, $answer" ;;
  esac
  [ -n "${3-}" ] || (($(echo "$ours <= 3 * $seconds" | bc))) || fail "check takes more than three times as long"
}

compare 300 1
compare 2000 1
compare 2000 1 broken

before=
for times in 1 10 100; do
  check_sample 300 "$times"
  printf '%s, each link %d times\n' "$said" "$times"
  [ -z "$before" ] || (($(echo "$ours <= 15 * $before" | bc))) || fail "the time grows faster than the links"
  before=$ours
done
