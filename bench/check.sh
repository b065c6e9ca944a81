#!/bin/bash
# The time that `check` takes against the size of the text, on texts made from the glossary that Debian's git-doc ships.
#   bench/check.sh [PROGRAM]       (needs `apt-get install git-doc`, and the program built by ./vkbuild where none is named)
set -eu
glossary=$( (dpkg -L git-doc || true) 2>/dev/null | grep glossary-content.txt) || { echo "bench: git-doc isn't installed: apt-get install git-doc" >&2; exit 2; }
source "$(dirname "$0")/timed_check.sh"
# Each copy has ids of its own, so that each link of it has its one anchor.
for copies in 1 60 120 240 360; do
  python3 - "$glossary" "$copies" <<'P' >text.adoc
import re, sys
text = open(sys.argv[1], encoding="utf-8").read()
for copy in range(int(sys.argv[2])):
    sys.stdout.write(re.sub(r"(\[\[|<<)([A-Za-z0-9_:][A-Za-z0-9_:.-]*)(?=\]\]|>>|,)", rf"\g<1>\g<2>-{copy}", text))
P
  size=$(stat -c %s text.adoc)
  timed_check
  printf '%9d bytes  %-14s %.2f s\n' "$size" "$answer" "$seconds"
done
