#!/bin/bash
# That compilers take the headers of a real registry, with the values and sizes of the published one, and that they are written faster than by the
# registry's own generator.
#   bench/compile.sh           (needs `apt-get install libvulkan-dev`, Python, a compiler of C and C++, and GNU time)
set -eu
top=$(cd "$(dirname "$0")/.." && pwd)
files=$( (dpkg -L libvulkan-dev || true) 2>/dev/null)
registry=$(grep 'registry/vk.xml' <<<"$files") || { echo "bench: libvulkan-dev isn't installed" >&2; exit 2; }
given=$(grep 'vulkan/vulkan_core.h' <<<"$files")
vkbuild=${VKBUILD:-$top/vkbuild}
made=$(mktemp -d)
trap 'rm -rf "$made"' EXIT

# Compiles a text behind the platform's own header as C and as C++: take NAME.
take() {
  cp "$made/$1.c" "$made/$1.cpp"
  cc -Wall -Wextra -Werror -pedantic -I "$made" -I "$(dirname "$given")" -c "$made/$1.c" -o "$made/$1.o"
  c++ -Wall -Wextra -Werror -pedantic -I "$made" -I "$(dirname "$given")" -c "$made/$1.cpp" -o "$made/$1.o"
  echo "$1: taken as C and as C++"
}

# Writes the header of some options: write NAME OPTION ..
write() {
  local name=$1
  shift
  "$vkbuild" header "$registry" vulkan "$@" >"$made/$name.h" || { cat "$made/$name.h"; exit 1; }
  printf '#include <vulkan/vk_platform.h>\n#include "%s.h"\n' "$name" >"$made/$name.c"
  echo "$name: $# options, $(stat -c %s "$made/$name.h") bytes"
  take "$name"
}

mapfile -t versions < <(python3 "$top/bench/header_names.py" "$registry")
mapfile -t all < <(python3 "$top/bench/header_names.py" "$registry" extensions)
write first VK_VERSION_1_0
write versions "${versions[@]}"
write extensions "${all[@]}"

python3 "$top/bench/header_asserts.py" "$made/extensions.h" "$given" >"$made/print.c"
cc -o "$made/print" "$made/print.c"
{
  printf '#include <vulkan/vk_platform.h>\n#include "extensions.h"\n'
  printf '#ifdef __cplusplus\n#define ASSERT(said) static_assert(said, #said)\n#else\n#define ASSERT(said) _Static_assert(said, #said)\n#endif\n'
  "$made/print"
} >"$made/asserts.c"
echo "asserts: $(grep -c '^ASSERT(VK' "$made/asserts.c") values and $(grep -c '^ASSERT(sizeof' "$made/asserts.c") sizes"
take asserts

env time -f 'the generator of the package: %U s' python3 "$top/bench/header_generator.py" "$(dirname "$registry")" "$made"
env time -f 'vkbuild: %U s' "$vkbuild" header "$registry" vulkan "${all[@]}" >/dev/null
