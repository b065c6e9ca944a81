#!/bin/bash
# The time that `tag` takes on 200 files of 1 MB with 100,000 statements, of which seven of ten have no tag, beside that of a copy.
#   bench/tag.sh [PROGRAM]              (needs python3, and the program built by ./vkbuild where none is named)
source "$(dirname "$0")/timed_check.sh"
mkdir old

python3 - <<'P'
plain = "some text of a chapter that goes on for a while, as the lines between blocks of valid usage do\n"
for file in range(200):
    parts = []
    for block in range(50):
        parts.append(f"include::{{generated}}/api/structs/VkStruct{file}x{block}.adoc[]\n" + plain * 190 + ".Valid Usage\n****\n")
        for usage in range(10):
            number = 10 * block + usage + 1
            tag = f"[[VUID-VkStruct{file}x{block}-member{usage}-{number:05}]]\n    " if usage % 4 == 0 else ""
            parts.append(f"  * {tag}pname:member{usage} must: be what the lines\n    above say of it\n")
        parts.append("****\n")
    with open(f"old/f{file:03}.adoc", "w") as out:
        out.write("".join(parts))
P
size=$(cat old/*.adoc | wc -c)

# Runs the words, and sets `seconds` and `answer`.
timed() {
  local start end
  start=$(date +%s.%N)
  answer=$("$@") || true
  end=$(date +%s.%N)
  seconds=$(echo "$end - $start" | bc)
}

timed cp -r old new
printf '%9d bytes  cp               %.2f s\n' "$size" "$seconds"
for time in first again; do
  timed "$program" tag 1 new/*.adoc
  printf '%9d bytes  %-15s  %.2f s (tag, %s)\n' "$size" "$answer" "$seconds" "$time"
done
