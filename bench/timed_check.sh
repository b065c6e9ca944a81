# What the benches of `check` share: they source this file. The program is the one that the bench's first word names, or else that which ./vkbuild
# builds. It goes into a folder that is taken away at the end, and gives `timed_check`, `measure` and `least`.
set -eu
top=$(cd "$(dirname "${BASH_SOURCE[0]}")/.." && pwd)
program=${1:-}
if [ -z "$program" ]; then
  "$top/vkbuild" >/dev/null 2>&1 || true
  program=$top/crates/vkbuild/out/vkbuild
fi
[ -x "$program" ] || { echo "bench: the program isn't built" >&2; exit 2; }
program=$(realpath "$program")
work=$(mktemp -d)
trap 'rm -rf "$work"' EXIT
cd "$work"

# Checks text.adoc: `answer` is the report, `seconds` the time.
timed_check() {
  local start end
  start=$(date +%s.%N)
  answer=$("$program" check - text.adoc -)
  end=$(date +%s.%N)
  seconds=$(echo "$end - $start" | bc)
}

# Runs a command: `answer` is the first line that it writes, `seconds` the time of a processor, `kilobytes` the memory. (needs GNU time)
measure() {
  local TIMEFORMAT='%3U + %3S'
  { time env time -q -f %M -o memory "$@" >report 2>errors || true; } 2>took
  answer=$(head -1 report)
  seconds=$(bc <took)
  kilobytes=$(cat memory)
}

# The same, with the least time of so many runs: least RUNS COMMAND ..
least() {
  local runs=$1 best
  shift
  measure "$@"
  best=$seconds
  while ((--runs > 0)); do
    measure "$@"
    best=$(echo "if ($seconds < $best) $seconds else $best" | bc)
  done
  seconds=$best
}
