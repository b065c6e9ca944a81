#!/bin/bash
# The time that `check` takes on documents of many files: many chapters behind one another, and files in one another, each with many conditionals.
#   bench/chapters.sh [PROGRAM]         (needs python3, and the program built by ./vkbuild where none is named)
source "$(dirname "$0")/timed_check.sh"
mkdir -p chapters

# 200 chapters of 1,000 lines, each with an anchor and a link to it.
python3 - >text.adoc <<'P'
for chapter in range(200):
    with open(f"chapters/c{chapter}.adoc", "w") as file:
        for line in range(1000):
            file.write(f"[[a-{chapter}-{line}]] some text of a chapter that goes on for a while, with <<a-{chapter}-{line},a link>> in it.\n")
    print(f"include::{{chapters}}/c{chapter}.adoc[]")
P
size=$(cat chapters/*.adoc | wc -c)
timed_check
printf '200 chapters, %9d bytes  %-10s %.2f s\n' "$size" "$answer" "$seconds"

# 300,000 lines within 16 files of 64 conditionals each, and the same lines within one conditional.
python3 - <<'P'
lines = "".join(f"[[i-{k}]] <<i-{k}>>\n" for k in range(300000))
names = [f"N{k}" for k in range(8)]
for level in range(16):
    openers = "".join(f"ifdef::{names[(level + k) % 8]}[]\n" for k in range(64))
    inner = f"include::{{chapters}}/d{level + 1}.adoc[]\n" if level < 15 else lines
    with open(f"chapters/d{level}.adoc", "w") as file:
        file.write(openers + inner + "endif::[]\n" * 64)
with open("flat.adoc", "w") as file:
    file.write("ifdef::" + ",".join(names) + "[]\nendif::[]\nifdef::N0[]\n" + lines + "endif::[]\n")
P
cp chapters/d0.adoc text.adoc
timed_check
printf '16 files in one another, 1,024 conditionals  %-10s %.2f s\n' "$answer" "$seconds"
cp flat.adoc text.adoc
timed_check
printf 'the same lines in one conditional            %-10s %.2f s\n' "$answer" "$seconds"
