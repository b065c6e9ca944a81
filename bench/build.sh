#!/bin/bash
# The time that `build` takes against the size of the text, beside Asciidoctor's reader on the same conditionals, which writes the same lines; and on a
# text that includes the declaration and the valid usage of each struct and command of a real registry.
#   bench/build.sh            (needs `apt-get install asciidoctor libvulkan-dev`, Python, and GNU time)
set -eu
top=$(cd "$(dirname "$0")/.." && pwd)
registry=$( (dpkg -L libvulkan-dev || true) 2>/dev/null | grep 'registry/vk.xml') || { echo "bench: libvulkan-dev isn't installed" >&2; exit 2; }
vkbuild=${VKBUILD:-$top/vkbuild}
"$vkbuild" >/dev/null 2>&1 || true
work=$(mktemp -d)
trap 'rm -rf "$work"' EXIT
cd "$work"

# Runs a command, and says what it took: timed NAME COMMAND ..
timed() {
  local name=$1
  shift
  env time -f '%U %S %M' -o took "$@" >"$name.adoc"
  read -r user system memory <took
  printf '  %-12s %5.2f s, %7d kB\n' "$name" "$(echo "$user + $system" | bc)" "$memory"
}

chosen=(VK_0 VK_2 VK_3 VK_5 VK_7 VK_8 VK_11)
for blocks in 40 400 600; do
  python3 "$top/bench/build_files.py" "$blocks" >text.adoc
  echo "$(stat -c %s text.adoc) bytes, $(wc -l <text.adoc) lines, ${#chosen[@]} of 12 options chosen:"
  timed vkbuild "$vkbuild" build - text.adoc - "${chosen[@]}"
  timed asciidoctor ruby "$top/bench/build_lines.rb" text.adoc "${chosen[@]}"
  cmp vkbuild.adoc asciidoctor.adoc && echo '  both write the same'
done

python3 "$top/bench/build_files.py" pages "$registry" >pages.adoc
mapfile -t all < <(python3 "$top/bench/header_names.py" "$registry" extensions)
echo "vk.xml, $(($(wc -l <pages.adoc) / 3)) names, ${#all[@]} options chosen:"
timed vkbuild "$vkbuild" build "$registry" pages.adoc vulkan "${all[@]}"
echo "  $(stat -c %s vkbuild.adoc) bytes with $(grep -c '^  \* \[\[VUID-' vkbuild.adoc) statements"
