#!/bin/bash
# The time of a processor and the memory that `check` takes on a document with a page for each type and command of a real registry: one in which links break,
# and one in which all hold. It fails where the verdict is another, or where `check` takes a minute or a gigabyte.
#   bench/manual.sh [PROGRAM]       (needs `apt-get install libvulkan-dev`, python3, GNU time, and the program built by ./vkbuild where none is named)
source "$(dirname "$0")/timed_check.sh"
registry=$( (dpkg -L libvulkan-dev || true) 2>/dev/null | grep 'registry/vk.xml') || { echo "bench: libvulkan-dev isn't installed" >&2; exit 2; }

# Measures `check` on the document: check_manual VERDICT [whole]
check_manual() {
  local wanted=$1 made
  shift
  made=$(python3 "$top/bench/manual_files.py" "$registry" "$@")
  measure "$program" check "$registry" manual.adoc vulkan
  printf '%s, %d lines: %-46s %7.3f s, %7d kB\n' "$made" "$(cat manual.adoc chapters/*.adoc | wc -l)" "$answer" "$seconds" "$kilobytes"
  [ "${answer%% *}" = "$wanted" ] || { echo "bench: the verdict should be $wanted" >&2; exit 1; }
  (($(echo "$seconds < 60" | bc) && kilobytes < 1000000)) || { echo "bench: it takes too much" >&2; exit 1; }
}

check_manual no
check_manual yes whole
